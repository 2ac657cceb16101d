// Reads a STEP file with OpenCASCADE, and with the word `check` has it checked too; prints how many entities it read.
#include <STEPControl_Reader.hxx>
#include <IFSelect_ReturnStatus.hxx>
#include <Interface_CheckIterator.hxx>
#include <Interface_CheckTool.hxx>
#include <StepData_StepModel.hxx>
#include <XSControl_WorkSession.hxx>
#include <Message.hxx>
#include <Message_Messenger.hxx>
#include <Message_PrinterOStream.hxx>
#include <cstdio>
#include <cstring>

int main(int count, char **words) {
    if (count < 2) return 2;
    Message::DefaultMessenger()->RemovePrinters(STANDARD_TYPE(Message_PrinterOStream));
    STEPControl_Reader reader;
    if (reader.ReadFile(words[1]) != IFSelect_RetDone) return 1;
    auto model = reader.StepModel();
    if (count > 2 && std::strcmp(words[2], "check") == 0) {
        Interface_CheckTool tool(model);
        auto checks = tool.CompleteCheckList();
        std::printf("%d entities, %s\n", model->NbEntities(), checks.IsEmpty(true) ? "no failure" : "failures");
    } else {
        std::printf("%d entities\n", model->NbEntities());
    }
    return 0;
}

// Reads an IFC file with IFC++; prints how many entities it read.
#include <ifcpp/model/BuildingModel.h>
#include <ifcpp/reader/ReaderSTEP.h>
#include <cstdio>
#include <fstream>
#include <iterator>
#include <memory>
#include <string>

int main(int count, char **words) {
    if (count < 2) return 2;
    std::ifstream file(words[1], std::ios::binary);
    std::string text((std::istreambuf_iterator<char>(file)), std::istreambuf_iterator<char>());
    auto model = std::make_shared<BuildingModel>();
    ReaderSTEP reader;
    reader.readHeader(text, model);
    reader.readData(text, model);
    std::printf("%zu entities\n", model->getMapIfcEntities().size());
    return 0;
}

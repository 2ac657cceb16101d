// Reads an IFC file with assimp, which reads the instances that the geometry asks for; prints how many meshes it made.
#include <assimp/Importer.hpp>
#include <assimp/scene.h>
#include <cstdio>

int main(int count, char **words) {
    if (count < 2) return 2;
    Assimp::Importer importer;
    const aiScene *scene = importer.ReadFile(words[1], 0);
    if (scene == nullptr) {
        std::fprintf(stderr, "%s\n", importer.GetErrorString());
        return 1;
    }
    std::printf("%u meshes\n", scene->mNumMeshes);
    return 0;
}

// Inserts the scans of a script by the OctoMap library, as a session of octomap does by itself, and
// writes the .bt file of the map to standard output.
//
//     insert RES < SCRIPT > map.bt
//     insert RES dry < SCRIPT        reads the script, and inserts and writes nothing
//
// The script's lines are comments, scan with a range, p, end and quit. tests/library.py builds
// this.
#include <octomap/octomap.h>

#include <iostream>
#include <sstream>
#include <string>

int main(int count, char **words) {
    if (count < 2) return 2;
    const bool inserts = count == 2;
    octomap::OcTree tree(std::stod(words[1]));
    octomap::Pointcloud cloud;
    octomap::pose6d pose;
    double range = -1;
    std::string line;
    while (std::getline(std::cin, line)) {
        std::istringstream rest(line);
        std::string word;
        rest >> word;
        if (word == "scan") {
            float x, y, z, qw, qx, qy, qz;
            rest >> x >> y >> z >> qw >> qx >> qy >> qz >> range;
            const octomath::Quaternion turn(qw, qx, qy, qz);
            pose = octomap::pose6d(octomap::point3d(x, y, z), turn.normalized());
            cloud.clear();
        } else if (word == "p") {
            float x, y, z;
            rest >> x >> y >> z;
            cloud.push_back(x, y, z);
        } else if (word == "end" && inserts) {
            tree.insertPointCloud(cloud, octomap::point3d(0, 0, 0), pose, range);
        } else if (word == "quit") {
            break;
        }
    }
    if (inserts) tree.writeBinary(std::cout);
    return 0;
}

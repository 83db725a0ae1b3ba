#include <octofix_octree.hpp> // with -Doctomap=octofix -Doctomath=octofix

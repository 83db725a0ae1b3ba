#include <octofix_octree.hpp> // with -Doctomap=octofix -Doctomath=octofix
namespace octofix { class OcTreeStamped; } // a name alone, for headers that speak of it

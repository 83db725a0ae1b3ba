# The targets @NAME@::octofix, the shared library, and @NAME@::static, wherever they lie.

# (where /lib is a link to /usr/lib, the prefix is the one behind it)
get_filename_component(_octofix_prefix "${CMAKE_CURRENT_LIST_DIR}" REALPATH)
get_filename_component(_octofix_prefix "${_octofix_prefix}/@UP@/.." ABSOLUTE)

if(NOT TARGET @NAME@::octofix)
  add_library(@NAME@::octofix SHARED IMPORTED)
  set_target_properties(@NAME@::octofix PROPERTIES
    IMPORTED_LOCATION "${_octofix_prefix}/@LIB@/lib@NAME@.so.1"
    IMPORTED_SONAME lib@NAME@.so.1
    INTERFACE_INCLUDE_DIRECTORIES "${_octofix_prefix}/include")

  add_library(@NAME@::static STATIC IMPORTED)
  set_target_properties(@NAME@::static PROPERTIES
    IMPORTED_LOCATION "${_octofix_prefix}/@LIB@/lib@NAME@.a"
    IMPORTED_LINK_INTERFACE_LANGUAGES C
    INTERFACE_INCLUDE_DIRECTORIES "${_octofix_prefix}/include")

  # (a project in C alone knows no standard of C++)
  get_property(_octofix_languages GLOBAL PROPERTY ENABLED_LANGUAGES)
  if(_octofix_languages MATCHES "CXX")
    set_property(TARGET @NAME@::octofix @NAME@::static
      PROPERTY INTERFACE_COMPILE_FEATURES cxx_std_17)
  endif()
  unset(_octofix_languages)
endif()

unset(_octofix_prefix)

# The target finder::finder: the archive and its headers, as they lie beside this file.
if(NOT TARGET finder::finder)
  get_filename_component(finder_prefix "${CMAKE_CURRENT_LIST_DIR}/../../.." ABSOLUTE)
  add_library(finder::finder STATIC IMPORTED)
  set_target_properties(finder::finder PROPERTIES
    IMPORTED_LOCATION "${finder_prefix}/lib/libfinder.a"
    IMPORTED_LINK_INTERFACE_LANGUAGES C
    INTERFACE_INCLUDE_DIRECTORIES "${finder_prefix}/include")
  unset(finder_prefix)
endif()

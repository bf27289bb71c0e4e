# find_package(cordyceps) gives the target cordyceps::cordyceps, the static library.
get_filename_component(_cordyceps_library "${CMAKE_CURRENT_LIST_DIR}/../.." ABSOLUTE)
if(NOT TARGET cordyceps::cordyceps)
  add_library(cordyceps::cordyceps STATIC IMPORTED)
  set_target_properties(cordyceps::cordyceps PROPERTIES
    IMPORTED_LOCATION "${_cordyceps_library}/libcordyceps.a"
    IMPORTED_LINK_INTERFACE_LANGUAGES "C"
    INTERFACE_INCLUDE_DIRECTORIES "@INCLUDE@")
endif()

# find_package(row-mask) gives the target `row-mask`: the header and the library. `make install` fills in what is between
# two `@`.
get_filename_component(ROW_MASK_PREFIX "${CMAKE_CURRENT_LIST_DIR}/@UP@" ABSOLUTE)
if(NOT TARGET row-mask)
  add_library(row-mask UNKNOWN IMPORTED)
  set_target_properties(row-mask PROPERTIES
    IMPORTED_LOCATION "${CMAKE_CURRENT_LIST_DIR}/../../@LIBRARY@"
    INTERFACE_INCLUDE_DIRECTORIES "${ROW_MASK_PREFIX}/include")
endif()
set(row-mask_VERSION @VERSION@)

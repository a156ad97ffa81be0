# find_package(vp): the library for C, as vp::vp where it is loaded and as vp::static where a program carries it along.
get_filename_component(_vp_prefix "${CMAKE_CURRENT_LIST_DIR}/../../.." ABSOLUTE)
if(NOT TARGET vp::vp)
    add_library(vp::vp SHARED IMPORTED)
    set_target_properties(vp::vp PROPERTIES IMPORTED_LOCATION "${_vp_prefix}/lib/@SONAME@" IMPORTED_SONAME "@SONAME@"
        INTERFACE_INCLUDE_DIRECTORIES "${_vp_prefix}/include")
    add_library(vp::static STATIC IMPORTED)
    set_target_properties(vp::static PROPERTIES IMPORTED_LOCATION "${_vp_prefix}/lib/libvp.a"
        INTERFACE_INCLUDE_DIRECTORIES "${_vp_prefix}/include")
endif()
unset(_vp_prefix)

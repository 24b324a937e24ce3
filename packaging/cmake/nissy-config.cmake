# find_package(nissy): the targets nissy::nissy, the shared object, and nissy::static, the archive. This file stands in LIBDIR/cmake/nissy.
get_filename_component(nissy_libdir "${CMAKE_CURRENT_LIST_DIR}/../.." ABSOLUTE)
find_path(nissy_includedir nissy.h NO_DEFAULT_PATH NO_CACHE
    PATHS "${nissy_libdir}/../include" "${nissy_libdir}/../../include")
foreach(nissy_file "${nissy_libdir}/libnissy.so.2" "${nissy_includedir}/nissy.h")
    if(NOT EXISTS "${nissy_file}")
        set(nissy_FOUND FALSE)
        set(nissy_NOT_FOUND_MESSAGE "${nissy_file} isn't there")
        return()
    endif()
endforeach()

if(NOT TARGET nissy::nissy)
    add_library(nissy::nissy SHARED IMPORTED)
    set_target_properties(nissy::nissy PROPERTIES
        IMPORTED_LOCATION "${nissy_libdir}/libnissy.so.2"
        IMPORTED_SONAME libnissy.so.2
        INTERFACE_INCLUDE_DIRECTORIES "${nissy_includedir}")
endif()
if(NOT TARGET nissy::static AND EXISTS "${nissy_libdir}/libnissy.a")
    add_library(nissy::static STATIC IMPORTED)
    set_target_properties(nissy::static PROPERTIES
        IMPORTED_LOCATION "${nissy_libdir}/libnissy.a"
        INTERFACE_INCLUDE_DIRECTORIES "${nissy_includedir}")
endif()

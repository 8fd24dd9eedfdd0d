# find_package(backoff): the target backoff::backoff is the shared library, backoff::archive the archive.
get_filename_component(backoff_PREFIX "${CMAKE_CURRENT_LIST_DIR}/../../.." ABSOLUTE)

if(NOT TARGET backoff::backoff)
    add_library(backoff::backoff SHARED IMPORTED)
    set_target_properties(backoff::backoff PROPERTIES
        IMPORTED_LOCATION "${backoff_PREFIX}/lib/libbackoff.so"
        IMPORTED_SONAME "libbackoff.so.${backoff_VERSION_MAJOR}"
        INTERFACE_INCLUDE_DIRECTORIES "${backoff_PREFIX}/include")
    add_library(backoff::archive STATIC IMPORTED)
    set_target_properties(backoff::archive PROPERTIES
        IMPORTED_LOCATION "${backoff_PREFIX}/lib/libbackoff.a"
        INTERFACE_INCLUDE_DIRECTORIES "${backoff_PREFIX}/include")
endif()

# find_package(gwizdorad) gives three targets: gwizdorad::gwizdorad, the archive with everything; gwizdorad::shared, the same as a shared library;
# gwizdorad::numbers, the archive of the number rules alone. It may be moved: every path is taken from where this file stands.
get_filename_component(_gwizdorad_prefix "${CMAKE_CURRENT_LIST_DIR}/../../.." ABSOLUTE)

function(_gwizdorad_target name kind file)
    if(NOT TARGET gwizdorad::${name})
        add_library(gwizdorad::${name} ${kind} IMPORTED)
        set_target_properties(gwizdorad::${name} PROPERTIES
            IMPORTED_LOCATION "${_gwizdorad_prefix}/lib/${file}"
            IMPORTED_LINK_INTERFACE_LANGUAGES C
            INTERFACE_INCLUDE_DIRECTORIES "${_gwizdorad_prefix}/include")
    endif()
endfunction()

_gwizdorad_target(gwizdorad STATIC libgwizdorad.a)
_gwizdorad_target(shared SHARED libgwizdorad.so.@INTERFACE@)
_gwizdorad_target(numbers STATIC libgwizdorad_numbers.a)
set_target_properties(gwizdorad::shared PROPERTIES IMPORTED_SONAME libgwizdorad.so.@INTERFACE@)
unset(_gwizdorad_prefix)

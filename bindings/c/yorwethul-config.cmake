# For find_package(yorwethul CONFIG): the archive and the header, as the target yorwethul::yorwethul. They stand beside this file,
# as ./dist makes them, or below the prefix where this file is in lib/cmake/yorwethul.
if(NOT TARGET yorwethul::yorwethul)
    set(_yorwethul_lib "${CMAKE_CURRENT_LIST_DIR}")
    set(_yorwethul_include "${CMAKE_CURRENT_LIST_DIR}")
    if(NOT EXISTS "${_yorwethul_lib}/libyorwethul.a")
        get_filename_component(_yorwethul_lib "${CMAKE_CURRENT_LIST_DIR}/../.." ABSOLUTE)
        get_filename_component(_yorwethul_include "${CMAKE_CURRENT_LIST_DIR}/../../../include" ABSOLUTE)
    endif()
    if(NOT EXISTS "${_yorwethul_lib}/libyorwethul.a")
        set(yorwethul_FOUND FALSE)
        set(yorwethul_NOT_FOUND_MESSAGE "there is no libyorwethul.a in ${CMAKE_CURRENT_LIST_DIR}: ./dist makes one")
        return()
    endif()
    add_library(yorwethul::yorwethul STATIC IMPORTED)
    set_target_properties(yorwethul::yorwethul PROPERTIES
        IMPORTED_LOCATION "${_yorwethul_lib}/libyorwethul.a"
        IMPORTED_LINK_INTERFACE_LANGUAGES C
        INTERFACE_INCLUDE_DIRECTORIES "${_yorwethul_include}")
endif()

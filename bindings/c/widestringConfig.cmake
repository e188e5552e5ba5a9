# The targets widestring::widestring, the shared library, and widestring::static, and widestring::static-v3, whose code
# needs a processor of level 3 (x86-64-v3, AVX2). glibc's loader chooses among the shared libraries by itself.
get_filename_component(widestring_lib "${CMAKE_CURRENT_LIST_DIR}/@LIB@" ABSOLUTE)
get_filename_component(widestring_include "${CMAKE_CURRENT_LIST_DIR}/@INCLUDE@" ABSOLUTE)
if(NOT TARGET widestring::widestring)
    add_library(widestring::widestring SHARED IMPORTED)
    set_target_properties(widestring::widestring PROPERTIES
        IMPORTED_LOCATION "${widestring_lib}/@SHARED@"
        IMPORTED_SONAME "@SONAME@"
        INTERFACE_INCLUDE_DIRECTORIES "${widestring_include}")
    foreach(widestring_target static static-v3)
        string(REPLACE "static" "libwidestring" widestring_name ${widestring_target})
        add_library(widestring::${widestring_target} STATIC IMPORTED)
        set_target_properties(widestring::${widestring_target} PROPERTIES
            IMPORTED_LOCATION "${widestring_lib}/${widestring_name}.a"
            INTERFACE_INCLUDE_DIRECTORIES "${widestring_include}")
    endforeach()
endif()

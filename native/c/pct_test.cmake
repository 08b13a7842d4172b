# The target pct_test: what a test of C or C++ is linked with. PCT_LIB_DIR says where libpct is, if
# not below the same prefix, or in the checkout of this folder.
find_package(Threads REQUIRED)
set(PCT_PREFIX "${CMAKE_CURRENT_LIST_DIR}/../../..")
if(NOT EXISTS "${PCT_PREFIX}/include/pct.h")
    set(PCT_PREFIX "${CMAKE_CURRENT_LIST_DIR}/../..")
endif()
find_library(PCT_LIBRARY pct PATHS "${PCT_LIB_DIR}" "${PCT_PREFIX}/lib" NO_DEFAULT_PATH REQUIRED)
add_library(pct_test STATIC "${CMAKE_CURRENT_LIST_DIR}/pct_test.c")
set_target_properties(pct_test PROPERTIES C_STANDARD 11 C_EXTENSIONS OFF)
target_include_directories(pct_test PUBLIC "${CMAKE_CURRENT_LIST_DIR}" "${PCT_PREFIX}/include")
target_link_libraries(pct_test PUBLIC "${PCT_LIBRARY}" Threads::Threads)

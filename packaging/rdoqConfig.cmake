# rdoq::rdoq, the shared library, and rdoq::rdoq_static, the archive.
get_filename_component(rdoq_prefix "${CMAKE_CURRENT_LIST_DIR}/../../.." ABSOLUTE)
if(NOT TARGET rdoq::rdoq)
  add_library(rdoq::rdoq SHARED IMPORTED)
  set_target_properties(rdoq::rdoq PROPERTIES
    IMPORTED_LOCATION "${rdoq_prefix}/lib/librdoq_c.so.@VERSION@"
    IMPORTED_SONAME "librdoq_c.so.@SERIES@"
    INTERFACE_INCLUDE_DIRECTORIES "${rdoq_prefix}/include")
  add_library(rdoq::rdoq_static STATIC IMPORTED)
  set_target_properties(rdoq::rdoq_static PROPERTIES
    IMPORTED_LOCATION "${rdoq_prefix}/lib/librdoq_c.a"
    INTERFACE_INCLUDE_DIRECTORIES "${rdoq_prefix}/include")
endif()
unset(rdoq_prefix)

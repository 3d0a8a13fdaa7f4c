# The targets compactd::compactd, the static library, and compactd::compactd_shared. What uses compactd_round.h links Threads::Threads too.

# The links in the path are followed first: /lib may be one to /usr/lib, and the headers lie beside the latter.
get_filename_component(_compactd_prefix "${CMAKE_CURRENT_LIST_DIR}" REALPATH)
get_filename_component(_compactd_prefix "${_compactd_prefix}/../../.." ABSOLUTE)

if(NOT TARGET compactd::compactd)
  add_library(compactd::compactd STATIC IMPORTED)
  set_target_properties(compactd::compactd PROPERTIES
    IMPORTED_LINK_INTERFACE_LANGUAGES C
    IMPORTED_LOCATION "${_compactd_prefix}/lib/libcompactd.a"
    INTERFACE_INCLUDE_DIRECTORIES "${_compactd_prefix}/include")

  add_library(compactd::compactd_shared SHARED IMPORTED)
  set_target_properties(compactd::compactd_shared PROPERTIES
    IMPORTED_LOCATION "${_compactd_prefix}/lib/libcompactd.so.${compactd_VERSION}"
    IMPORTED_SONAME "libcompactd.so.${compactd_VERSION_MAJOR}"
    INTERFACE_INCLUDE_DIRECTORIES "${_compactd_prefix}/include")
endif()

unset(_compactd_prefix)

# Kotskhin for CMake: find_package(kotskhin), and then of these targets one to link with.
#
#   kotskhin::kotskhin   C, and the archive
#   kotskhin::shared     C, and the shared library, where it is
#   kotskhin::cpp        C++17, and the archive: <kotskhin.hpp>, <kotskhin/metrics.hpp>
#   kotskhin::http       the same with libcurl, for <kotskhin/metrics/http.hpp>: where COMPONENTS has http
include(CMakeFindDependencyMacro)
set(THREADS_PREFER_PTHREAD_FLAG ON)
find_dependency(Threads)
get_filename_component(_kotskhin_at "${CMAKE_CURRENT_LIST_DIR}/../../.." ABSOLUTE)

if(NOT TARGET kotskhin::kotskhin)
  add_library(kotskhin::kotskhin STATIC IMPORTED)
  set_target_properties(kotskhin::kotskhin PROPERTIES
    IMPORTED_LOCATION "${_kotskhin_at}/lib/libkotskhin.a"
    INTERFACE_INCLUDE_DIRECTORIES "${_kotskhin_at}/include"
    INTERFACE_LINK_LIBRARIES Threads::Threads)
  if(EXISTS "${_kotskhin_at}/shared/libkotskhin.so.0")
    add_library(kotskhin::shared SHARED IMPORTED)
    set_target_properties(kotskhin::shared PROPERTIES
      IMPORTED_LOCATION "${_kotskhin_at}/shared/libkotskhin.so.0"
      IMPORTED_SONAME libkotskhin.so.0
      INTERFACE_INCLUDE_DIRECTORIES "${_kotskhin_at}/include")
  endif()
  get_property(_kotskhin_languages GLOBAL PROPERTY ENABLED_LANGUAGES)
  if(CXX IN_LIST _kotskhin_languages)
    add_library(kotskhin::cpp INTERFACE IMPORTED)
    set_target_properties(kotskhin::cpp PROPERTIES
      INTERFACE_COMPILE_FEATURES cxx_std_17
      INTERFACE_LINK_LIBRARIES kotskhin::kotskhin)
    if(http IN_LIST kotskhin_FIND_COMPONENTS)
      find_dependency(CURL)
      add_library(kotskhin::http INTERFACE IMPORTED)
      set_target_properties(kotskhin::http PROPERTIES INTERFACE_LINK_LIBRARIES "kotskhin::cpp;CURL::libcurl")
    endif()
  endif()
  unset(_kotskhin_languages)
endif()
unset(_kotskhin_at)

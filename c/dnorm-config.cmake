# Defines the imported targets dnorm::dnorm, the shared library where there is one, or else the archive, and
# dnorm::static, the archive, for C and C++. find_package(dnorm) reads this file, in the folder cmake/dnorm beside the
# libraries.
get_filename_component(dnorm_libraries "${CMAKE_CURRENT_LIST_DIR}/../.." REALPATH)
# The headers are beside the folder of the libraries, or, where that has the name of a platform, beside the one above.
set(dnorm_headers "${dnorm_libraries}/../include")
if(NOT EXISTS "${dnorm_headers}/dnorm.h")
  set(dnorm_headers "${dnorm_libraries}/../../include")
endif()
get_filename_component(dnorm_headers "${dnorm_headers}" REALPATH)
find_library(dnorm_shared NAMES libdnorm.so.@ABI@ dnorm libdnorm PATHS "${dnorm_libraries}" NO_DEFAULT_PATH)
find_library(dnorm_archive NAMES libdnorm.a dnorm PATHS "${dnorm_libraries}" NO_DEFAULT_PATH)
foreach(it dnorm static)
  set(dnorm_file "${dnorm_shared}")
  if(it STREQUAL static)
    set(dnorm_file "${dnorm_archive}")
  endif()
  if(dnorm_file AND NOT TARGET dnorm::${it})
    add_library(dnorm::${it} UNKNOWN IMPORTED)
    set_target_properties(dnorm::${it} PROPERTIES
      IMPORTED_LOCATION "${dnorm_file}"
      INTERFACE_INCLUDE_DIRECTORIES "${dnorm_headers}")
  endif()
endforeach()
unset(dnorm_shared CACHE)
unset(dnorm_archive CACHE)
unset(dnorm_file)
unset(dnorm_libraries)
unset(dnorm_headers)

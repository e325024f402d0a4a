# CMake package of the storage unit: the target storage_unit::storage_unit.
# It finds the prefix from its own place, so that the prefix may be moved.
get_filename_component(_storage_unit_prefix "${CMAKE_CURRENT_LIST_FILE}" REALPATH)
get_filename_component(_storage_unit_prefix "${_storage_unit_prefix}/../../../.." ABSOLUTE)

if(NOT TARGET storage_unit::storage_unit)
    add_library(storage_unit::storage_unit STATIC IMPORTED)
    set_target_properties(storage_unit::storage_unit PROPERTIES
        IMPORTED_LOCATION "${_storage_unit_prefix}/lib/libstorage_unit.a"
        INTERFACE_INCLUDE_DIRECTORIES "${_storage_unit_prefix}/include")
endif()

unset(_storage_unit_prefix)

# The client of a slot of trdpd, which is one header: target_link_libraries(PROGRAM TrdpSlot::trdp_slot)
if(NOT TARGET TrdpSlot::trdp_slot)
    get_filename_component(trdp_slot_prefix "${CMAKE_CURRENT_LIST_DIR}/../../.." ABSOLUTE)
    add_library(TrdpSlot::trdp_slot INTERFACE IMPORTED)
    set_target_properties(TrdpSlot::trdp_slot PROPERTIES
        INTERFACE_INCLUDE_DIRECTORIES "${trdp_slot_prefix}/include")
    unset(trdp_slot_prefix)
endif()

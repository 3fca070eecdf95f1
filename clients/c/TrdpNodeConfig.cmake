# The node as a part of a program: target_link_libraries(PROGRAM TrdpNode::trdp_node), or TrdpNode::trdp_node_static. The
# static one has no functions for memory: add those of a device, or the file TrdpNode_MEMORY, to the program's sources.
get_filename_component(trdp_node_libraries "${CMAKE_CURRENT_LIST_DIR}/../.." ABSOLUTE)
get_filename_component(trdp_node_prefix "${trdp_node_libraries}/../.." ABSOLUTE)
# A function that looked for the package has made the targets, and not this variable.
set(TrdpNode_MEMORY "${trdp_node_prefix}/share/trdp-node/trdp_node_alloc.c")
if(NOT TARGET TrdpNode::trdp_node)
    add_library(TrdpNode::trdp_node SHARED IMPORTED)
    set_target_properties(TrdpNode::trdp_node PROPERTIES
        IMPORTED_LOCATION "${trdp_node_libraries}/libtrdp_node.so"
        INTERFACE_INCLUDE_DIRECTORIES "${trdp_node_prefix}/include")
    add_library(TrdpNode::trdp_node_static STATIC IMPORTED)
    set_target_properties(TrdpNode::trdp_node_static PROPERTIES
        IMPORTED_LOCATION "${trdp_node_libraries}/libtrdp_node.a"
        INTERFACE_INCLUDE_DIRECTORIES "${trdp_node_prefix}/include")
endif()
unset(trdp_node_libraries)
unset(trdp_node_prefix)

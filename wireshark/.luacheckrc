-- What Wireshark has for dissectors.
std = "lua52"
max_line_length = 140
read_globals = {
    "Dissector", "DissectorTable", "NSTime", "Proto", "ProtoExpert", "ProtoField", "Struct", "base", "bit", "expert", "frametype",
}

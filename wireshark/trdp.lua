-- A dissector of the Train Real-time Data Protocol (TRDP, IEC 61375-2-3:2015) for Wireshark and tshark: process data at UDP port
-- 17224 and message data at UDP port 17225. Fields have the standard's names.
--
--     tshark -X lua_script:wireshark/trdp.lua -r capture.pcapng
--
-- Other ports are named by  -d udp.port==17300,trdp  (in Wireshark: Analyze, Decode As). Wireshark reads the file at its start
-- if it is in the folder of personal Lua plugins (Help, About Wireshark, Folders). It needs
-- trdp_sessions.lua and trdp_values.lua in the same folder.
--
-- A payload is shown as data. Where a second script says which dataset the payload of a comId is, it is shown as its value:
--
--     clients/python/trdp_lua.py node.toml > datasets.lua
--     tshark -X lua_script:wireshark/trdp.lua -X lua_script:datasets.lua -r capture.pcapng

-- Wireshark finds modules beside a personal plugin, but not beside one that is installed for all users: so this names its own folder.
local folder = debug.getinfo(1, "S").source:match("^@(.*[/\\])")
if folder then package.path = folder .. "?.lua;" .. package.path end

-- Which telegrams answer which, and how a payload is read as a value of its dataset.
local sessions = require("trdp_sessions")
local values = require("trdp_values")

local trdp = Proto("trdp", "Train Real-time Data Protocol")

local PD_PORT = 17224
local MD_PORT = 17225

-- The message types: two letters, as a number.
local MSG_TYPES = {
    [0x5064] = "Pd, data",
    [0x5070] = "Pp, pull reply",
    [0x5072] = "Pr, pull request",
    [0x5065] = "Pe, error",
    [0x4d6e] = "Mn, notify",
    [0x4d72] = "Mr, request",
    [0x4d70] = "Mp, reply without confirmation",
    [0x4d71] = "Mq, reply with confirmation wanted",
    [0x4d63] = "Mc, confirm",
    [0x4d65] = "Me, error",
}

local REQUEST = 0x4d72

local CHECK_STATES = { [0] = "Bad", [1] = "Good" }

local fields = {
    sequenceCounter = ProtoField.uint32("trdp.sequenceCounter", "sequenceCounter"),
    sentAgain = ProtoField.uint32("trdp.sentAgain", "request sent again, number of the repeat"),
    protocolVersion = ProtoField.uint16("trdp.protocolVersion", "protocolVersion", base.HEX),
    msgType = ProtoField.uint16("trdp.msgType", "msgType", base.HEX, MSG_TYPES),
    comId = ProtoField.uint32("trdp.comId", "comId"),
    etbTopoCnt = ProtoField.uint32("trdp.etbTopoCnt", "etbTopoCnt"),
    opTrnTopoCnt = ProtoField.uint32("trdp.opTrnTopoCnt", "opTrnTopoCnt"),
    datasetLength = ProtoField.uint32("trdp.datasetLength", "datasetLength"),
    reserved = ProtoField.uint32("trdp.reserved", "reserved"),
    replyComId = ProtoField.uint32("trdp.replyComId", "replyComId"),
    replyIpAddress = ProtoField.ipv4("trdp.replyIpAddress", "replyIpAddress"),
    replyStatus = ProtoField.int32("trdp.replyStatus", "replyStatus"),
    sessionId = ProtoField.guid("trdp.sessionId", "sessionId"),
    replyTimeout = ProtoField.uint32("trdp.replyTimeout", "replyTimeout", base.UNIT_STRING, { " microseconds" }),
    sourceURI = ProtoField.string("trdp.sourceURI", "sourceURI"),
    destinationURI = ProtoField.string("trdp.destinationURI", "destinationURI"),
    headerFcs = ProtoField.uint32("trdp.headerFcs", "headerFcs", base.HEX),
    headerFcsStatus = ProtoField.uint8("trdp.headerFcs.status", "headerFcs status", base.DEC, CHECK_STATES),
    padding = ProtoField.bytes("trdp.padding", "padding"),
    dataset = ProtoField.uint32("trdp.dataset", "dataset"),
    value = ProtoField.string("trdp.value", "value"),
    element = values.fields.element,
    number = values.fields.number,
    answers = sessions.fields.answers,
    answeredBy = sessions.fields.answeredBy,
    answerTime = sessions.fields.answerTime,
}
trdp.fields = fields

-- The headers: fields and their lengths in bytes, in order; headerFcs is behind them.
local START = {
    { "sequenceCounter", 4 }, { "protocolVersion", 2 }, { "msgType", 2 }, { "comId", 4 },
    { "etbTopoCnt", 4 }, { "opTrnTopoCnt", 4 }, { "datasetLength", 4 },
}
local PD_REST = { { "reserved", 4 }, { "replyComId", 4 }, { "replyIpAddress", 4 } }
local MD_REST = {
    { "replyStatus", 4 }, { "sessionId", 16 }, { "replyTimeout", 4 }, { "sourceURI", 32 }, { "destinationURI", 32 },
}
local PD_HEADER_LENGTH = 40
local MD_HEADER_LENGTH = 116

-- The length of the longest telegram with a header of that length.
local LONGEST = { [PD_HEADER_LENGTH] = 1472, [MD_HEADER_LENGTH] = 65504 }

local function fault(name, text, group)
    return ProtoExpert.new("trdp." .. name, text, group, expert.severity.ERROR)
end

local faults = {
    short = fault("short", "fewer bytes than a header has", expert.group.MALFORMED),
    long = fault("long", "more bytes than a telegram may have", expert.group.MALFORMED),
    check = fault("headerFcs.wrong", "headerFcs isn't the check of the bytes before it", expert.group.CHECKSUM),
    version = fault("protocolVersion.unknown", "the high byte of protocolVersion isn't 1", expert.group.PROTOCOL),
    kind = fault("msgType.unknown", "msgType isn't one of this port", expert.group.PROTOCOL),
    value = fault("value.wrong", "the payload is no value of the comId's dataset", expert.group.MALFORMED),
    length = fault("datasetLength.wrong", "datasetLength is more than there is behind the header", expert.group.MALFORMED),
}
trdp.experts = faults

-- The exclusive or of two numbers of 32 bits. Versions of Lua differ in where it is, and that of `bit` gives negative numbers.
local bxor = bit32 and bit32.bxor or bit and bit.bxor or load("return function(a, b) return a ~ b end")()
local function xor(a, b)
    return bxor(a, b) % 0x100000000
end

-- The remainders of the CRC for each byte.
local REMAINDERS = {}
for byte = 0, 255 do
    local remainder = byte
    for _ = 1, 8 do
        local half = math.floor(remainder / 2)
        remainder = remainder % 2 == 1 and xor(half, 0xEDB88320) or half
    end
    REMAINDERS[byte] = remainder
end

-- The CRC-32 of IEEE 802.3.
local function frame_check(bytes)
    local register = 0xFFFFFFFF
    for i = 1, #bytes do
        register = xor(REMAINDERS[xor(register % 256, bytes:byte(i))], math.floor(register / 256))
    end
    return xor(register, 0xFFFFFFFF)
end

-- Tells of a request that was sent before that it is sent again, for the n-th time: its counter is how often it was sent before
-- (a rule of this node's own). Answers what the list of packets says of it.
local function add_repeat(buffer, tree)
    local count = buffer(0, 4):uint()
    if buffer(6, 2):uint() ~= REQUEST or count == 0 then
        return ""
    end
    tree:add(fields.sentAgain, buffer(0, 4)):set_generated()
    return string.format(" [sent again, %s time]", ({ "1st", "2nd", "3rd" })[count] or count .. "th")
end

-- Adds a field of a header.
local function add_field(name, range, tree)
    if name == "sourceURI" or name == "destinationURI" then
        -- A URI ends at its first zero byte.
        tree:add(fields[name], range, range:raw():match("^[^%z]*"))
    elseif name == "comId" then
        tree:add(fields[name], range):append_text(values.name_behind("telegram_names", range:uint()))
    else
        tree:add(fields[name], range)
    end
end

-- Adds fields from an offset on, and answers the offset behind them.
local function add_fields(list, buffer, offset, tree)
    for _, entry in ipairs(list) do
        local name, length = entry[1], entry[2]
        add_field(name, buffer(offset, length), tree)
        offset = offset + length
    end
    return offset
end

-- Adds headerFcs, and answers whether it is right.
local function add_check(buffer, offset, tree)
    local range = buffer(offset, 4)
    local expected = frame_check(buffer:raw(0, offset))
    local is_right = range:le_uint() == expected
    local item = tree:add_le(fields.headerFcs, range)
    item:append_text(is_right and " (right)" or string.format(" (wrong, 0x%08x is right)", expected))
    tree:add(fields.headerFcsStatus, range, is_right and 1 or 0):set_generated()
    if not is_right then
        item:add_proto_expert_info(faults.check)
    end
    return is_right
end

-- Whether a telegram is message data: by the first letter of its type, and where that is neither M nor P by its port.
local function is_message_data(buffer, port)
    local letter = buffer(6, 1):string()
    return letter == "M" or letter ~= "P" and port == MD_PORT
end

-- Tells what else is wrong with a header.
local function add_faults(buffer, header, port, tree)
    if buffer:reported_len() > LONGEST[header] then
        tree:add_proto_expert_info(faults.long)
    end
    if buffer(4, 1):uint() ~= 1 then
        tree:add_proto_expert_info(faults.version)
    end
    local foreign = header == MD_HEADER_LENGTH and PD_PORT or MD_PORT
    if not MSG_TYPES[buffer(6, 2):uint()] or port == foreign then
        tree:add_proto_expert_info(faults.kind)
    end
    if buffer(20, 4):uint() > buffer:reported_len() - header then
        tree:add_proto_expert_info(faults.length)
    end
end

-- Adds a payload as a value of its comId's dataset, where a script says which that is. Answers its text; nil where it has none.
local function add_payload(com_id, buffer, tree)
    local id = _G.trdp_datasets and _G.trdp_datasets.com_ids[com_id]
    if not id then
        return nil
    end
    local dataset = tree:add(fields.dataset, id)
    dataset:append_text(values.name_behind("dataset_names", id))
    local value = values.read(id, buffer)
    if not value then
        dataset:add_proto_expert_info(faults.value)
        return nil
    end
    dataset:set_generated()
    values.add(id, value, buffer, tree:add(fields.value, buffer(), value.text))
    return value.text
end

-- Adds what is behind the header: the dataset as its value or as data, and what follows it. Answers what the list of packets says
-- of it.
local function add_dataset(buffer, header, pinfo, tree, root)
    local declared = buffer(20, 4):uint()
    local captured = buffer:captured_len() - header
    local length = math.min(declared, captured)
    if length < captured then
        tree:add(fields.padding, buffer(header + length, captured - length))
    end
    local text
    if length > 0 then
        local payload = buffer(header, length):tvb()
        text = length == declared and add_payload(buffer(8, 4):uint(), payload, tree)
        if not text then
            Dissector.get("data"):call(payload, pinfo, root)
        end
    end
    if not text then
        return string.format("%d bytes", declared)
    end
    if #text > 200 then
        -- No part of a character is left at the end.
        text = text:sub(1, 197):gsub("[\192-\255][\128-\191]*$", "") .. "..."
    end
    return text
end

-- Shows a datagram that has no whole header, or none that was captured.
local function show_rest(buffer, header, pinfo, tree, root)
    local is_cut = buffer:reported_len() >= header
    if not is_cut then
        tree:add_proto_expert_info(faults.short)
    end
    pinfo.cols.info = is_cut and "header not captured" or "header not complete"
    Dissector.get("data"):call(buffer, pinfo, root)
end

-- Another capture has other sessions.
function trdp.init()
    sessions.forget()
end

function trdp.dissector(buffer, pinfo, root)
    pinfo.cols.protocol = "TRDP"
    local tree = root:add(trdp, buffer())
    local port = pinfo.match_uint
    local captured = buffer:captured_len()
    local is_md = captured >= PD_HEADER_LENGTH and is_message_data(buffer, port)
    local header = is_md and MD_HEADER_LENGTH or PD_HEADER_LENGTH
    if captured < header then
        show_rest(buffer, header, pinfo, tree, root)
        return
    end
    local offset = add_fields(START, buffer, 0, tree)
    offset = add_fields(is_md and MD_REST or PD_REST, buffer, offset, tree)
    local repeated = is_md and add_repeat(buffer, tree) or ""
    local is_right = add_check(buffer, offset, tree)
    if is_md and is_right then
        sessions.add(buffer, pinfo, tree)
    end
    add_faults(buffer, header, port, tree)
    tree:set_len(header)
    local dataset = add_dataset(buffer, header, pinfo, tree, root)
    local kind = MSG_TYPES[buffer(6, 2):uint()] or "unknown msgType"
    local com_id = buffer(8, 4):uint()
    pinfo.cols.info = string.format("%s, comId %d%s, sequenceCounter %d, %s%s%s", kind, com_id,
        values.name_behind("telegram_names", com_id), buffer(0, 4):uint(), dataset, repeated,
        is_right and "" or " [headerFcs is wrong]")
end

local ports = DissectorTable.get("udp.port")
ports:add(PD_PORT, trdp)
ports:add(MD_PORT, trdp)

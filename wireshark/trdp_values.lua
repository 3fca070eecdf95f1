-- How a payload is read as a value of a dataset, and how it is shown to people. This is a module of trdp.lua.
-- The texts are those of clients/python/trdp_slot/_readings.py.
--
-- The script that clients/python/trdp_lua.py writes makes one global table, trdp_datasets. In it `com_ids` has the dataset of each
-- comId, and `datasets` the elements of each dataset: the name of a basic type or the number of a dataset, and the size. An element
-- may have a `name`, a `unit`, and a `scale` with an `offset`; `decimals` is how many decimals scale and offset have.
-- `telegram_names` and `dataset_names` are there if there are such names. No name and no unit has control characters.

local fields = {
    element = ProtoField.string("trdp.element", "element"),
    number = ProtoField.double("trdp.element.number", "number"),
}

-- The name of a telegram or of a dataset, in brackets, for the end of a text; an empty text if there is none.
local function name_behind(names, number)
    local name = _G.trdp_datasets and _G.trdp_datasets[names] and _G.trdp_datasets[names][number]
    return name and " (" .. name .. ")" or ""
end

-- A number in a format of C, with a decimal point in every locale.
local function spelled(format, number)
    local text = string.format(format, number):gsub(",", "."):gsub("%-nan", "nan")
    return text
end

-- The text of a number, as clients/python writes it, and the number as Lua has it.
local function unsigned(range)
    if range:len() == 8 then
        return tostring(range:uint64()), range:uint64():tonumber()
    end
    return string.format("%d", range:uint()), range:uint()
end

local function signed(range)
    if range:len() == 8 then
        return tostring(range:int64()), range:int64():tonumber()
    end
    return string.format("%d", range:int()), range:int()
end

-- The same of a REAL. Its text has enough digits to distinguish it from all other numbers of its type.
local function real(range)
    local layout, fewest, most = ">f", 6, 9
    if range:len() == 8 then
        layout, fewest, most = ">d", 15, 17
    end
    local number, format = range:float(), nil
    for digits = fewest, most do
        format = "%." .. digits .. "g"
        local again = tonumber(string.format(format, number))
        if again and Struct.unpack(layout, Struct.pack(layout, again)) == number then
            break
        end
    end
    return spelled(format, number), number
end

-- The text of a pair of numbers.
local function pair(range)
    return string.format("(%d, %d)", range:range(0, 4):uint(), range:range(4, range:len() - 4):uint())
end

-- The basic types: how many bytes a value has, and what reads its text and its number.
local BASIC = {
    BOOL8 = { 1, unsigned }, BITSET8 = { 1, unsigned }, ANTIVALENT8 = { 1, unsigned },
    CHAR8 = { 1, unsigned }, UTF16 = { 2, unsigned },
    INT8 = { 1, signed }, INT16 = { 2, signed }, INT32 = { 4, signed }, INT64 = { 8, signed },
    UINT8 = { 1, unsigned }, UINT16 = { 2, unsigned }, UINT32 = { 4, unsigned }, UINT64 = { 8, unsigned },
    REAL32 = { 4, real }, REAL64 = { 8, real },
    TIMEDATE32 = { 4, unsigned }, TIMEDATE48 = { 6, pair }, TIMEDATE64 = { 8, pair },
}

-- What numbers mean. For ANTIVALENT8 this is our reading, which nobody has checked against the standard.
local MEANINGS = { BOOL8 = { [0] = "False", [1] = "True" }, ANTIVALENT8 = { [1] = "False", [2] = "True" } }

-- The text of `raw * scale + offset`, and the number. The text has the decimals of scale and offset if a double has so many digits.
local function scaled(element, raw)
    local product, decimals = raw * element.scale, element.decimals
    local number = product + element.offset
    if decimals and math.max(math.abs(product), math.abs(element.offset)) * 10 ^ decimals < 1e15 then
        local text = spelled("%." .. decimals .. "f", number):gsub("^%-(0[0.]*)$", "%1")
        return text, number
    end
    return spelled(element[1] == "REAL32" and "%.7g" or "%.15g", number), number
end

-- The sequences of UTF-8 for characters beyond ASCII.
local SEQUENCES = {
    "[\194-\223][\128-\191]", "\224[\160-\191][\128-\191]", "[\225-\236\238\239][\128-\191][\128-\191]",
    "\237[\128-\159][\128-\191]", "\240[\144-\191][\128-\191][\128-\191]", "[\241-\243][\128-\191][\128-\191][\128-\191]",
    "\244[\128-\143][\128-\191][\128-\191]",
}

local function is_utf8(bytes)
    for _, sequence in ipairs(SEQUENCES) do
        bytes = bytes:gsub(sequence, ".")
    end
    return not bytes:find("[\128-\255]")
end

-- Whether the first `length` items are UTF-16: behind a high surrogate there is a low one, and nowhere else.
local function is_utf16(items, length)
    local was_high = false
    for i = 1, length do
        local unit = items[i].number
        local is_low = unit >= 0xDC00 and unit <= 0xDFFF
        if is_low ~= was_high then
            return false
        end
        was_high = unit >= 0xD800 and unit <= 0xDBFF
    end
    return not was_high
end

-- A text as Python writes it. Of the letters that cannot be printed only control characters are escaped.
local function quoted(text)
    local function escaped(control)
        return string.format("\\x%02x", control:byte(-1))
    end
    local quote = text:find("'") and not text:find('"') and '"' or "'"
    local inner = text:gsub("[\\" .. quote .. "]", "\\%0"):gsub("\t", "\\t"):gsub("\n", "\\n"):gsub("\r", "\\r")
        :gsub("[\1-\31\127]", escaped):gsub("\194[\128-\159]", escaped)
    return quote .. inner .. quote
end

-- The text of an array of CHAR8 or UTF16, up to its first zero; nil if it is no text.
local function text_of(kind, items, buffer)
    local length = 0
    while items[length + 1] and items[length + 1].number ~= 0 do
        length = length + 1
    end
    if length == 0 then
        return "''"
    end
    local range = buffer(items.offset, length * BASIC[kind][1])
    if kind == "UTF16" then
        return is_utf16(items, length) and quoted(range:ustring()) or nil
    end
    return is_utf8(range:raw()) and quoted(range:raw()) or nil
end

-- A value is a table with its text, the offset of its first byte and the one behind its last. A single number has its number, an
-- element with a name its name, and a list its values in order. Each function that reads a value returns nil if there are too few
-- bytes.
local read_dataset

local function read_item(kind, buffer, offset)
    local basic = BASIC[kind]
    if not basic then
        return read_dataset(kind, buffer, offset)
    end
    local length, read = basic[1], basic[2]
    if offset + length > buffer:len() then
        return nil
    end
    local text, number = read(buffer(offset, length))
    return { text = text, number = number, offset = offset, behind = offset + length }
end

local function joined(items)
    local texts, is_named = {}, false
    for i, item in ipairs(items) do
        texts[i] = item.name and item.name .. ": " .. item.text or item.text
        is_named = is_named or item.name ~= nil
    end
    local text = table.concat(texts, ", ")
    return is_named and "{" .. text .. "}" or "[" .. text .. "]"
end

local function list_of(items, offset, behind)
    items.text, items.offset, items.behind = joined(items), offset, behind
    return items
end

local function read_array(kind, count, buffer, offset)
    local items, behind = {}, offset
    for i = 1, count do
        local item = read_item(kind, buffer, behind)
        if not item then
            return nil
        end
        items[i], behind = item, item.behind
    end
    return list_of(items, offset, behind)
end

-- Replaces the text of a number by what it means to people. Returns whether that is another text.
local function set_meaning(element, item)
    local raw = item.text
    if element.scale and item.number then
        item.text, item.number = scaled(element, item.number)
    elseif element.name or element[1] == "ANTIVALENT8" then
        item.text = MEANINGS[element[1]] and MEANINGS[element[1]][item.number] or raw
    end
    return item.text ~= raw
end

-- Replaces the text of an element of a basic type by what people read: its meaning, its unit, and the raw numbers if they differ.
local function set_reading(element, value, buffer)
    local kind, is_array, raw, is_other = element[1], element[2] ~= 1, value.text, element.scale ~= nil
    for _, item in ipairs(is_array and value or { value }) do
        is_other = set_meaning(element, item) or is_other
    end
    if is_array then
        local is_text = element.name and not is_other and (kind == "CHAR8" or kind == "UTF16")
        value.text = is_text and text_of(kind, value, buffer) or joined(value)
    end
    value.text = value.text .. (element.unit and " " .. element.unit or "") .. (is_other and " (" .. raw .. ")" or "")
end

read_dataset = function(id, buffer, offset)
    local entries, behind, count = {}, offset, 0
    for i, element in ipairs(_G.trdp_datasets.datasets[id]) do
        local kind, size = element[1], element[2]
        local entry
        if size == 1 then
            entry = read_item(kind, buffer, behind)
        else
            entry = read_array(kind, size == 0 and count or size, buffer, behind)
        end
        if not entry then
            return nil
        end
        count = size == 1 and entry.number or 0
        if BASIC[kind] then
            set_reading(element, entry, buffer)
        end
        entry.name = element.name
        entries[i], behind = entry, entry.behind
    end
    return list_of(entries, offset, behind)
end

-- Adds a line for a value. The line of an element with a name is a field, and its number, for filters, is below it.
local function add_line(name, text, value, buffer, tree)
    local length = value.behind - value.offset
    local range = length > 0 and buffer(value.offset, length) or buffer()
    if not name then
        return tree:add(range, text)
    end
    local item = tree:add(fields.element, range, name)
    item:set_text(text)
    if value.number then
        item:add(fields.number, range, value.number):set_generated()
    end
    return item
end

local function label_of(element, index)
    local kind, size = element[1], element[2]
    if element.name then
        return element.name
    end
    if BASIC[kind] then
        return string.format("element %d, %s%s", index, kind, size == 1 and "" or " array")
    end
    return string.format("element %d, dataset %d%s", index, kind, name_behind("dataset_names", kind))
end

local add_elements

-- Adds a value of an element: a line, and below it those of the datasets in it.
local function add_value(element, label, value, buffer, tree)
    local branch = add_line(element.name, label .. ": " .. value.text, value, buffer, tree)
    if not BASIC[element[1]] then
        add_elements(element[1], value, buffer, branch)
    end
end

add_elements = function(id, value, buffer, tree)
    for i, element in ipairs(_G.trdp_datasets.datasets[id]) do
        local label = label_of(element, i - 1)
        if element[2] == 1 or BASIC[element[1]] then
            add_value(element, label, value[i], buffer, tree)
        else
            for j, item in ipairs(value[i]) do
                add_value(element, string.format("%s, item %d", label, j - 1), item, buffer, tree)
            end
        end
    end
end

-- The value of a dataset that a payload is; nil if it is none.
local function read(id, buffer)
    local value = read_dataset(id, buffer, 0)
    return value and value.behind == buffer:len() and value or nil
end

return { fields = fields, name_behind = name_behind, read = read, add = add_elements }

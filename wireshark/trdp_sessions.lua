-- Which telegrams of a session answer which: replies, queries and errors a request, and a confirmation its query. This is a
-- module of trdp.lua.
--
-- Wireshark reads a capture in order, and keeps here what a later telegram needs. What comes after a telegram is known when the
-- whole capture was read: Wireshark shows it then, and tshark with its option -2.

local fields = {
    answers = ProtoField.framenum("trdp.answers", "answers the telegram in frame", base.NONE, frametype.REQUEST),
    answeredBy = ProtoField.framenum("trdp.answeredBy", "answered in frame", base.NONE, frametype.RESPONSE),
    answerTime = ProtoField.relative_time("trdp.answerTime", "time since that frame"),
}

-- The types, and what each answers.
local ANSWERED = { Mp = "Mr", Mq = "Mr", Me = "Mr", Mc = "Mq" }
local NO_SESSION = string.rep("\0", 16)

local sessions = {} -- of each session its requests and queries, in order
local links = {} -- of each frame the one that it answers, with the time of both, and those that answer it

local function forget()
    sessions, links = {}, {}
end

local function link_of(frame)
    links[frame] = links[frame] or { answered_by = {} }
    return links[frame]
end

-- The latest telegram of a session that this one may answer: a request, or the query of the device that this one goes to.
local function find(session, kind, dest)
    for i = #session, 1, -1 do
        local earlier = session[i]
        if earlier.kind == ANSWERED[kind] and (kind ~= "Mc" or earlier.source == dest) then
            return earlier
        end
    end
    return nil
end

-- Notes a telegram when a capture is read.
local function note(buffer, pinfo)
    local id, kind = buffer(28, 16):raw(), buffer(6, 2):string()
    if pinfo.visited or id == NO_SESSION then
        return
    end
    sessions[id] = sessions[id] or {}
    local earlier = find(sessions[id], kind, tostring(pinfo.net_dst))
    if earlier then
        link_of(pinfo.number).answers = { frame = earlier.frame, time = pinfo.rel_ts - earlier.time }
        table.insert(link_of(earlier.frame).answered_by, pinfo.number)
    end
    if kind == "Mr" or kind == "Mq" then
        local telegram = { kind = kind, frame = pinfo.number, time = pinfo.rel_ts, source = tostring(pinfo.net_src) }
        table.insert(sessions[id], telegram)
    end
end

-- Seconds as a time, rounded to nanoseconds as a whole: 0.9999999999 seconds are one second.
local function time_of(seconds)
    local nanoseconds = math.floor(seconds * 1e9 + 0.5)
    local whole = math.floor(nanoseconds / 1e9)
    return NSTime.new(whole, nanoseconds - whole * 1e9)
end

-- Notes a message, and adds what it answers and what answers it.
local function add(buffer, pinfo, tree)
    note(buffer, pinfo)
    local link = links[pinfo.number]
    if not link then
        return
    end
    if link.answers then
        tree:add(fields.answers, link.answers.frame):set_generated()
        tree:add(fields.answerTime, time_of(link.answers.time)):set_generated()
    end
    for _, frame in ipairs(link.answered_by) do
        tree:add(fields.answeredBy, frame):set_generated()
    end
end

return { fields = fields, add = add, forget = forget }

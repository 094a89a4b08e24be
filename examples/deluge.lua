-- A Wireshark dissector of the frames that motes send: their kinds, their fields, and whether the checksum is right. The grammar is
-- that of docs/PARTS.md, "The codec".
--
-- Where it lies in the folder of personal plugins (Help, About Wireshark, Folders), Wireshark loads it by itself. For one run:
--
--     wireshark -X lua_script:examples/deluge.lua
--     tshark -X lua_script:examples/deluge.lua -X lua_script1:five.toml -i lo -f 'udp portrange 17000-17004'
--
-- As root no script is loaded: be another user, as by `setpriv`.
--
-- The frames of a network go over UDP on 127.0.0.1: mote m listens at `port` + m of its profile. The ports are those of the profile
-- that `-X lua_script1:` names, and else those of the protocol's preferences, 17000 to 17015 at first.

local deluge = Proto("deluge", "Deluge frame")

local KINDS = { [1] = "advert", [2] = "request", [3] = "packet", [4] = "wide advert" }

-- the bytes of each kind's frames
local SIZES = { [1] = 38, [2] = 19, [3] = 35, [4] = 62 }

-- the images of each kind of advert, from 1 on
local IMAGES = { [1] = 3, [4] = 6 }

local LAST_PACKET = 47

local f = deluge.fields
f.kind = ProtoField.uint8("deluge.kind", "Kind", base.DEC, KINDS)
f.source = ProtoField.uint16("deluge.source", "Source mote")
f.to = ProtoField.uint16("deluge.to", "Asked mote")
f.image = ProtoField.uint8("deluge.image", "Image")
f.version = ProtoField.uint32("deluge.version", "Version")
f.page = ProtoField.uint8("deluge.page", "Page")
f.packet = ProtoField.uint8("deluge.packet", "Packet")
f.want = ProtoField.bytes("deluge.want", "Wanted packets")
f.wanted = ProtoField.uint8("deluge.wanted", "How many packets are wanted")
f.data = ProtoField.bytes("deluge.data", "Bytes of the page")
f.pages = ProtoField.uint8("deluge.pages", "Pages")
f.have = ProtoField.uint8("deluge.have", "Complete pages")
f.descriptor = ProtoField.uint16("deluge.descriptor", "Checksum of the descriptor", base.HEX)
f.number = ProtoField.uint32("deluge.order", "Number of the order")
f.ordered = ProtoField.uint8("deluge.ordered.image", "Ordered image")
f.ordered_version = ProtoField.uint32("deluge.ordered.version", "Ordered version")
f.check = ProtoField.uint16("deluge.check", "Checksum", base.HEX)
f.right = ProtoField.bool("deluge.check.right", "Checksum is right")

local e = deluge.experts
e.wrong = ProtoExpert.new("deluge.wrong", "The checksum is wrong", expert.group.CHECKSUM, expert.severity.ERROR)
e.none = ProtoExpert.new("deluge.none", "No frame: its length or its kind is none", expert.group.MALFORMED, expert.severity.WARN)

-- CRC-16/XMODEM of the first `count` bytes: x^16 + x^12 + x^5 + 1, start 0, most significant bit first
local function crc(buffer, count)
    local r = 0
    for i = 0, count - 1 do
        r = bit.bxor(r, bit.lshift(buffer(i, 1):uint(), 8))
        for _ = 1, 8 do
            if r >= 0x8000 then
                r = bit.bxor(bit.band(bit.lshift(r, 1), 0xffff), 0x1021)
            else
                r = bit.lshift(r, 1)
            end
        end
    end
    return r
end

-- how many bits are set in these bytes
local function bits(range)
    local n = 0
    for i = 0, range:len() - 1 do
        local byte = range(i, 1):uint()
        while byte > 0 do
            n = n + byte % 2
            byte = math.floor(byte / 2)
        end
    end
    return n
end

-- source, an entry for each image, and the order
local function advert(buffer, tree, kind)
    local images = IMAGES[kind]
    for i = 1, images do
        local at = 3 + 8 * (i - 1)
        local entry = tree:add(buffer(at, 8), "Image " .. i .. ": version " .. buffer(at, 4):uint() .. ", "
            .. buffer(at + 5, 1):uint() .. " of " .. buffer(at + 4, 1):uint() .. " pages")
        entry:add(f.version, buffer(at, 4))
        entry:add(f.pages, buffer(at + 4, 1))
        entry:add(f.have, buffer(at + 5, 1))
        entry:add(f.descriptor, buffer(at + 6, 2))
    end
    local at = 3 + 8 * images
    tree:add(f.number, buffer(at, 4))
    tree:add(f.ordered, buffer(at + 4, 1))
    tree:add(f.ordered_version, buffer(at + 5, 4))
    return "order " .. buffer(at, 4):uint()
end

local function request(buffer, tree)
    tree:add(f.to, buffer(3, 2))
    tree:add(f.image, buffer(5, 1))
    tree:add(f.version, buffer(6, 4))
    tree:add(f.page, buffer(10, 1))
    tree:add(f.want, buffer(11, 6))
    tree:add(f.wanted, buffer(11, 6), bits(buffer(11, 6)))
    return "to mote " .. buffer(3, 2):uint() .. ", image " .. buffer(5, 1):uint() .. " version " .. buffer(6, 4):uint()
        .. " page " .. buffer(10, 1):uint() .. ", " .. bits(buffer(11, 6)) .. " packets"
end

local function packet(buffer, tree)
    tree:add(f.image, buffer(3, 1))
    tree:add(f.version, buffer(4, 4))
    tree:add(f.page, buffer(8, 1))
    tree:add(f.packet, buffer(9, 1))
    tree:add(f.data, buffer(10, 23))
    return "image " .. buffer(3, 1):uint() .. " version " .. buffer(4, 4):uint() .. " page " .. buffer(8, 1):uint()
        .. " packet " .. buffer(9, 1):uint() .. " of " .. LAST_PACKET + 1
end

-- whether the checksum behind the first `count` bytes is theirs
local function check(buffer, tree, count)
    local right = crc(buffer, count) == buffer(count, 2):uint()
    local item = tree:add(f.check, buffer(count, 2))
    item:add(f.right, buffer(count, 2), right)
    if not right then
        item:add_proto_expert_info(e.wrong)
    end
    return right
end

function deluge.dissector(buffer, info, root)
    local length = buffer:len()
    info.cols.protocol = "Deluge"
    local tree = root:add(deluge, buffer())
    if length == 0 then
        info.cols.info = "no frame: 0 bytes"
        tree:add_proto_expert_info(e.none)
        return 0
    end
    local kind = buffer(0, 1):uint()
    tree:add(f.kind, buffer(0, 1))
    if SIZES[kind] ~= length then
        info.cols.info = "no frame: kind " .. kind .. ", " .. length .. " bytes"
        tree:add_proto_expert_info(e.none)
        return length
    end
    tree:add(f.source, buffer(1, 2))
    local told
    if kind == 2 then
        told = request(buffer, tree)
    elseif kind == 3 then
        told = packet(buffer, tree)
    else
        told = advert(buffer, tree, kind)
    end
    local right = check(buffer, tree, length - 2)
    info.cols.info = KINDS[kind] .. " of mote " .. buffer(1, 2):uint() .. ": " .. told .. (right and "" or ", checksum wrong")
    return length
end

-- ---- the ports

-- those of a profile
local function ports_of(name)
    local port, motes
    for line in io.lines(name) do
        port = tonumber(line:match("^port *= *(%d+)")) or port
        motes = tonumber(line:match("^motes *= *(%d+)")) or motes
    end
    if not port or not motes then
        error(name .. ": no profile of a network")
    end
    return port .. "-" .. port + motes - 1
end

local profile = ...
deluge.prefs.ports = Pref.range("UDP ports", profile and ports_of(profile) or "17000-17015",
    "The ports of the motes: the profile's port and those behind it", 65535)

DissectorTable.get("udp.port"):add(deluge.prefs.ports, deluge)

local before = deluge.prefs.ports
function deluge.prefs_changed()
    if before ~= deluge.prefs.ports then
        DissectorTable.get("udp.port"):remove(before, deluge)
        DissectorTable.get("udp.port"):add(deluge.prefs.ports, deluge)
        before = deluge.prefs.ports
    end
end

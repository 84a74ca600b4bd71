-- UAVCAN v0 frames of dynamic node ID allocation, in Wireshark: each whole transfer in words. Not proved.
--
--   tshark -X lua_script:tools/uavcan_v0.lua -r LOG        LOG is one of candump -L, which Wireshark opens as it is
--   wireshark -X lua_script:tools/uavcan_v0.lua LOG
--
-- Filters: uavcan_v0.type == "Allocation", uavcan_v0.source == 3, uavcan_v0.says contains "TELLS".
-- A transfer is told at its last frame; other frames say (part). Its CRC is not looked at. Interfaces are kept apart in
-- captures that name them (pcapng); of a log of candump Wireshark forgets the interfaces, so it should be of one bus.
-- It is right under Lua 5.2 (Wireshark 4.0 and 4.2) and under Lua 5.4 (4.4 and later), whose numbers differ.

local v0 = Proto("uavcan_v0", "UAVCAN v0")
local fields = {
  kind = ProtoField.string("uavcan_v0.kind", "Kind"),
  type = ProtoField.string("uavcan_v0.type", "Data type"),
  source = ProtoField.uint8("uavcan_v0.source", "Source"),
  destination = ProtoField.uint8("uavcan_v0.destination", "Destination"),
  tail = ProtoField.string("uavcan_v0.tail", "Tail"),
  transfer = ProtoField.uint8("uavcan_v0.transfer", "Transfer ID"),
  says = ProtoField.string("uavcan_v0.says", "Says"),
}
for name, field in pairs(fields) do v0.fields[name] = field end

local identifier_field, interface_field = Field.new("can.id"), Field.new("frame.interface_id")
local messages = {[1] = "Allocation", [341] = "NodeStatus", [390] = "Discovery"}
local services = {[1] = "GetNodeInfo", [30] = "AppendEntries", [31] = "RequestVote"}
local begun, whole = {}, {} -- by interface, identifier and transfer ID; by the number of the last frame

-- The bits of a number from a place on, so many of them; an integer also where 2 ^ count is none.
local function bits(number, place, count)
  return math.floor(number / 2 ^ place) % math.floor(2 ^ count)
end

local function number(payload, at)
  local a, b, c, d = payload:byte(at, at + 3)
  return a + b * 256 + c * 65536 + d * 16777216
end

local function hex(text)
  return (text:gsub(".", function(c) return string.format("%02x", c:byte()) end))
end

local function entry(payload, at)
  local node, unique_id = payload:byte(at + 20) % 128, hex(payload:sub(at + 4, at + 19))
  if node == 0 then return "a blank of term " .. number(payload, at) end
  if unique_id == string.rep("0", 32) then return "node ID " .. node .. " kept back, term " .. number(payload, at) end
  return "node ID " .. node .. " for " .. unique_id .. ", term " .. number(payload, at)
end

local function says_allocation(kind, payload)
  local node, flag, part = bits(payload:byte(1), 1, 7), payload:byte(1) % 2, hex(payload:sub(2))
  if kind == "anonymous" then
    local stage = flag == 1 and "first" or #payload == 7 and "second" or "third"
    return "asks, " .. stage .. " stage: " .. part .. (node > 0 and ", would like node ID " .. node or "")
  end
  if node > 0 then return "TELLS node ID " .. node .. " to " .. part end
  return "has " .. #payload - 1 .. " bytes of the unique ID: " .. part
end

-- What a whole transfer says.
local function says(kind, name, payload)
  local long = #payload
  if name == "Allocation" and long > 0 then return says_allocation(kind, payload) end
  if name == "NodeStatus" and long == 7 then return "up " .. number(payload, 1) .. " s" end
  if name == "Discovery" and long > 0 then
    return "knows " .. table.concat({payload:byte(2, long)}, ", ") .. ", in a cluster of " .. payload:byte(1)
  end
  if name == "RequestVote" and kind == "request" and long == 9 then
    return "asks for a vote in term " .. number(payload, 1) .. ", its log ends at place " .. payload:byte(9) ..
      " of term " .. number(payload, 5)
  end
  if name == "RequestVote" and long == 5 then
    return (payload:byte(5) >= 128 and "votes" or "denies its vote") .. " in term " .. number(payload, 1)
  end
  if name == "AppendEntries" and kind == "request" and long >= 10 then
    local text = "leads in term " .. number(payload, 1) .. ", behind place " .. payload:byte(9) .. " of term " ..
      number(payload, 5) .. ", " .. payload:byte(10) .. " committed"
    return long == 31 and text .. ", place " .. payload:byte(9) + 1 .. ": " .. entry(payload, 11) or text
  end
  if name == "AppendEntries" and long == 5 then
    return (payload:byte(5) >= 128 and "yes" or "no") .. " in term " .. number(payload, 1)
  end
  if name == "GetNodeInfo" and kind == "request" then return "asks for the unique ID" end
  if name == "GetNodeInfo" and long >= 41 then
    return "its unique ID is " .. hex(payload:sub(25, 40)) .. ", its name " .. payload:sub(42 + payload:byte(41))
  end
  return hex(payload)
end

-- Kind, name of the data type, source and destination (0: for all) of an identifier.
local function read(identifier)
  local source = bits(identifier, 0, 7)
  if bits(identifier, 7, 1) == 1 then
    local service = bits(identifier, 16, 8)
    return bits(identifier, 15, 1) == 1 and "request" or "response", services[service] or "service " .. service, source,
      bits(identifier, 8, 7)
  end
  local message = source == 0 and bits(identifier, 8, 2) or bits(identifier, 8, 16)
  return source == 0 and "anonymous" or "message", messages[message] or "message " .. message, source, 0
end

-- Joins a frame to the transfer of its source. This is done once for each frame, in their order.
local function join(interface, identifier, tail, body, frame)
  local key = interface .. "/" .. identifier .. "/" .. tail % 32
  if tail >= 128 then begun[key] = "" end
  if not begun[key] then return end
  begun[key] = begun[key] .. body
  if bits(tail, 6, 1) == 1 then
    whole[frame] = tail >= 128 and begun[key] or begun[key]:sub(3)
    begun[key] = nil
  end
end

function v0.init()
  begun, whole = {}, {}
end

function v0.dissector(buffer, pinfo, tree)
  local long = buffer:len()
  local info = identifier_field()
  if not info or long == 0 then return 0 end
  local identifier, interface = bits(info.value, 0, 29), interface_field()
  local kind, name, source, destination = read(identifier)
  local tail = buffer(long - 1, 1):uint()
  if not pinfo.visited then
    join(interface and tostring(interface.value) or "", identifier, tail, buffer:raw(0, long - 1), pinfo.number)
  end
  local text = whole[pinfo.number] and says(kind, name, whole[pinfo.number]) or "(part)"
  pinfo.cols.protocol = "UAVCAN v0"
  pinfo.cols.src = source == 0 and "anonymous" or tostring(source)
  pinfo.cols.dst = destination == 0 and "all" or tostring(destination)
  pinfo.cols.info = name .. " " .. kind .. ": " .. text
  local branch = tree:add(v0, buffer(), "UAVCAN v0, " .. name .. " " .. kind)
  branch:add(fields.kind, kind)
  branch:add(fields.type, name)
  branch:add(fields.source, source)
  branch:add(fields.destination, destination)
  branch:add(fields.tail, (tail >= 128 and "start " or "") .. (bits(tail, 6, 1) == 1 and "end " or "") ..
    (bits(tail, 5, 1) == 1 and "toggle" or ""))
  branch:add(fields.transfer, tail % 32)
  branch:add(fields.says, text)
  return long
end

v0:register_heuristic("can", function(buffer, pinfo, tree)
  return v0.dissector(buffer, pinfo, tree) > 0
end)

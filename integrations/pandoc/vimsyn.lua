-- A filter for pandoc: fenced code blocks get the colours of Vim's syntax files, by way of vimsyn.
--
--     pandoc --lua-filter=vimsyn.lua --standalone notes.md > notes.html
--
-- The first class of a block names its language. Blocks that can't be coloured stay as they are, and pandoc colours
-- them where it can. README.md is the page of this filter.

-- (a document can't name programs: it may be someone else's)
local programs = {
  vimsyn = os.getenv("VIMSYN") or "vimsyn",
  paint = os.getenv("VIMSYN_PAINT") or "vimsyn-paint",
}

local flat_files = {}  -- of each language its flat file, or false
local is_book = FORMAT:match("^epub")
local styles = {}      -- the lines of style that the blocks need, each once
local has_style = {}

local function say(text)
  io.stderr:write("vimsyn.lua: " .. text .. "\n")
end

-- What a program writes, or nil where it isn't there or its status isn't 0.
local function output(program, words)
  local well, answer = pcall(pandoc.pipe, program, words, "")
  if well then
    return answer
  end
  if type(answer) ~= "table" or answer.error_code == 127 then
    say(program .. " couldn't be run")
  end
end

-- The flat file of a language; it is asked for once, since Vim may have to make it.
local function flat_file(language)
  if flat_files[language] == nil then
    local path = output(programs.paint, { "--flat", "--language=" .. language })
    flat_files[language] = path and path:gsub("\n$", "") or false
  end
  return flat_files[language]
end

-- The page of a text, as vimsyn makes it.
local function page(language, text)
  local syntax = flat_file(language)
  if not syntax then
    return nil
  end
  return pandoc.system.with_temporary_directory("vimsyn", function(room)
    local name = room .. "/text"
    local file = assert(io.open(name, "wb"))
    file:write(text, "\n")
    file:close()
    local folder = syntax:match("^(.*)/syntax/[^/]*$")
    return output(programs.vimsyn, { "html", "--folder=" .. folder, "--", syntax, name })
  end)
end

-- The page's styles but that of its body: of each group its own.
local function styles_of(made)
  local found = {}
  for group, style in made:match("<style>\n(.-)</style>"):gmatch("%.(%S+) { ([^\n]*) }\n") do
    found[(group:gsub("\\", ""))] = style
  end
  return found
end

-- A book's chapters have no head of their own in which styles could stand, so there each span has its style.
local function with_styles(inside, found)
  return (inside:gsub('<span class="([^"]*)">', function(group)
    return found[group] and '<span class="' .. group .. '" style="' .. found[group] .. '">' or nil
  end))
end

-- For the head of a page, held to these blocks.
local function keep_styles(found)
  for group, style in pairs(found) do
    if not has_style[group .. style] then
      has_style[group .. style] = true
      styles[#styles + 1] = "pre.vimsyn ." .. group:gsub("%.", "\\.") .. " { " .. style .. " }"
    end
  end
  table.sort(styles)
end

local function escaped(text)
  return (text:gsub("[&<>\"]", { ["&"] = "&amp;", ["<"] = "&lt;", [">"] = "&gt;", ['"'] = "&quot;" }))
end

-- The attributes of a block, as HTML, with `vimsyn` before its classes.
local function attributes(block)
  local classes = "vimsyn " .. table.concat(block.classes, " ")
  local words = ' class="' .. escaped(classes) .. '"'
  if block.identifier ~= "" then
    words = ' id="' .. escaped(block.identifier) .. '"' .. words
  end
  for key, value in pairs(block.attributes) do
    words = words .. " data-" .. escaped(key) .. '="' .. escaped(value) .. '"'
  end
  return words
end

local function coloured(block)
  local language = block.classes[1]
  if not language or not language:match("^[%w_+#][%w_.+#-]*$") then
    return nil
  end
  local made = page(language, block.text)
  if not made then
    say("a block of '" .. language .. "' isn't coloured")
    return nil
  end
  local found = styles_of(made)
  local inside = made:match("\n<pre>\n(.*)\n</pre>\n</body>\n</html>\n$")
  if is_book then
    inside = with_styles(inside, found)
  else
    keep_styles(found)
  end
  return pandoc.RawBlock("html", "<pre" .. attributes(block) .. "><code>" .. inside .. "</code></pre>")
end

local function add_styles(meta)
  if #styles == 0 then
    return nil
  end
  local header = meta["header-includes"]
  local all = pandoc.utils.type(header) == "List" and header or pandoc.List({ header })
  local sheet = "<style>\n" .. table.concat(styles, "\n") .. "\n</style>"
  all:insert(pandoc.MetaBlocks({ pandoc.RawBlock("html", sheet) }))
  meta["header-includes"] = all
  return meta
end

-- Other formats than pages keep their blocks.
local is_page = is_book or FORMAT:match("^html")
for _, slides in ipairs({ "revealjs", "slidy", "slideous", "dzslides", "s5" }) do
  is_page = is_page or FORMAT == slides
end
if not is_page then
  return {}
end
return { { CodeBlock = coloured }, { Meta = add_styles } }

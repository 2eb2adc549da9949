# The conformance cases by Rack's parse_nested_query and build_nested_query.
#   ruby conformance/runners/rack.rb [--differences]
#
# Trees and data are compared in a normal form: a list is the map of 0, 1, 2 .. to its elements, a scalar is its text, and the order of a map's keys doesn't
# count. Nothing at the top counts as no value. A case that is an error here agrees if Rack raises one. What is written has to be the same pieces between `&`s, in
# any order. Left out is what Rack has no form for: shapes, limits, keys with more brackets than the depth limit, bytes that aren't UTF-8, inputs with escaped
# brackets in query mode, since Rack decodes before it nests, and what is written in form mode, without `[]` or as anything but a map.
require "json"
begin
  require "rack"
rescue LoadError
  puts "Rack is not installed, and left out"
  exit
end

FORM = /%5[bd]/i

def normal(value)
  case value
  when Hash then "{#{value.map { |key, part| "#{key.to_s.to_json}:#{normal(part)}" }.sort.join(",")}}"
  when Array then normal(value.each_with_index.to_h { |part, at| [at.to_s, part] })
  when nil then "null"
  else value.to_s.to_json
  end
end

def pieces(text) = text.split("&").sort.join("&")

def deepest(input)
  input.split("&").map { |pair| pair.split("=").first.to_s.gsub(/%5b/i, "[").count("[") }.max || 0
end

# What is wanted, or nil if Rack has no form for the case.
def wanted(it)
  if it.key?("written") && !it.key?("shape")
    return it["data"].is_a?(Hash) && it["mode"] == "query" && it["array_format"] == "empty_indexed" ? pieces(it["written"]) : nil
  end
  return if !it.key?("input") || it.fetch("shape", "any") != "any" || it.key?("max_length") || it.key?("max_pairs")
  return if it.key?("tree_encoded") || it["error"] == "not_utf8" || deepest(it["input"]) > it["depth"]
  return if it["mode"] == "query" && it["input"].match?(FORM)

  it.key?("error") ? "an error" : normal(it.key?("tree") ? it["tree"] : it["data"])
end

def found(it)
  return pieces(Rack::Utils.build_nested_query(it["data"])) unless it.key?("input")

  parsed = Rack::Utils.parse_nested_query(it["input"], "&")
  normal(parsed.empty? ? nil : parsed)
rescue StandardError
  "an error"
end

suite = JSON.parse(File.read(File.join(__dir__, "../cases.json")))
counts = suite["features"].transform_values { [0, 0, 0] }
suite["cases"].each do |it|
  want = wanted(it)
  got = want && found(it)
  counts[it["feature"]][want.nil? ? 2 : 1] += 1
  counts[it["feature"]][0] += 1 if want && got == want
  puts "#{it["feature"]}/#{it["name"]}: #{it["input"] || it["data"].to_json}: #{got}, and not #{want}" if ARGV == ["--differences"] && got != want
end
puts "Rack #{Rack.release}, Ruby #{RUBY_VERSION}", "#{"feature".ljust(12)} agreed     of  left out"
counts.each { |feature, (agreed, all, out)| puts format("%-12s%7d%7d%10d", feature, agreed, all, out) }

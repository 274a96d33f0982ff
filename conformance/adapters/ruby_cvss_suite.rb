#!/usr/bin/env ruby
# Answers the texts of the kit by the gem cvss-suite (Debian: apt-get install ruby-cvss-suite).
#
# columns: version,score,temporal,environmental (v4.0 is not in the gem)
require 'cvss_suite'

def answer(text)
  vector = CvssSuite.new(text)
  return 'error' unless vector.valid?

  [vector.version, vector.base_score, vector.temporal_score, vector.environmental_score].join(' ')
rescue StandardError
  'error'
end

$stdin.each_line("\n", chomp: true) { |line| puts answer(line) }

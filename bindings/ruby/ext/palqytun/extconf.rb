# frozen_string_literal: true

require "mkmf"

$CFLAGS << " -std=c11 -Wall -Wextra -Wno-unused-parameter"
have_library("dl")
create_makefile("palqytun/palqytun_ext")

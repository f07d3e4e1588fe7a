# frozen_string_literal: true

module Palqytun
  # The extension, and the library that it loads.
  module Library
    @ext = nil

    # The extension's functions, once the library is loaded. Raises LoadError.
    def self.ext
      @ext ||= loaded
    end

    def self.loaded
      begin
        require "palqytun/palqytun_ext"
      rescue ::LoadError => error
        raise LoadError.new("palqytun/palqytun_ext", "the extension can't be loaded: #{error.message}: gem install makes it, or `ruby extconf.rb && make`")
      end
      said = Ext.pq_load
      raise LoadError.new(said.split(": ", 2).first, said) if said
      Ext
    end
    private_class_method :loaded

    # Raises the error of a status that isn't done.
    def self.done(status)
      raise StatusError, status unless status == ABI::DONE
    end

    # The bytes that a call returned, or the error of its status.
    def self.written(bytes) = bytes.is_a?(Integer) ? raise(StatusError, bytes) : bytes

    # The same, nil if there is no such part.
    def self.part(bytes) = bytes == ABI::NO_PART ? nil : written(bytes)

    # A text of UTF-8.
    def self.text(bytes) = bytes&.force_encoding(Encoding::UTF_8)
  end
end

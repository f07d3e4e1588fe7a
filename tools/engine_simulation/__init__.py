"""Random scripts of many invocations, played by vmengine and checked by rules of their own: see tools/simulate-engines."""

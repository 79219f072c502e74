# The logical netlist that the program reads, in the language of Cap'n Proto: every data field has a slot of
# 32 bits, in the order in which they stand here, and every pointer field a word, in the same way. A name is a
# number: its place in `strList`.
@0xc2f1a7d3b5e49680;

struct Netlist {
  name @0 :Text;
  propMap @1 :PropertyMap;
  topInst @2 :CellInstance;
  strList @3 :List(Text);
  cellDecls @4 :List(CellDeclaration);
  portList @5 :List(Port);
  instList @6 :List(CellInstance);
  cellList @7 :List(Cell);
}

struct CellInstance {
  name @0 :UInt32;           # a name
  cell @1 :UInt32;           # an index into cellDecls
  propMap @2 :PropertyMap;
}

struct CellDeclaration {
  name @0 :UInt32;           # a name
  ports @1 :List(UInt32);    # indexes into portList
}

struct Cell {
  index @0 :UInt32;          # an index into cellDecls
  insts @1 :List(UInt32);    # indexes into instList
  nets @2 :List(Net);
}

struct Net {
  name @0 :UInt32;           # a name
  portInsts @1 :List(PortInstance);
}

struct PortInstance {
  port @0 :UInt32;           # an index into portList
  busTag @1 :UInt32;         # 0 a port of one bit, 1 a bit of a bus
  idx @2 :UInt32;            # which bit of the bus
  ownerTag @3 :UInt32;       # 0 a port of the cell itself, 1 a port of an instance
  inst @4 :UInt32;           # an index into instList, for ownerTag 1
}

struct Port {
  name @0 :UInt32;           # a name
  dir @1 :UInt32;            # 0 input, 1 output, 2 inout
  kind @2 :UInt32;           # 0 one bit, 1 a bus
  busStart @3 :UInt32;
  busEnd @4 :UInt32;
  propMap @5 :PropertyMap;
}

struct PropertyMap {
  entries @0 :List(Entry);
}

struct Entry {
  key @0 :UInt32;            # a name
  tag @1 :UInt32;            # 0 a text, 1 a number, 2 a Bool
  value @2 :UInt32;          # a name, a number or a Bool
}

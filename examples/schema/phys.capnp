# The physical netlist that the program writes, in the language of Cap'n Proto: every data field has a slot of 32 bits,
# in the order in which they stand here, and every pointer field a word, in the same way. A name is a number: its place
# in `strList`.
@0xd7a1e5c39b4f2068;

struct PhysNetlist {
  part @0 :Text;
  strList @1 :List(Text);
  placements @2 :List(CellPlacement);
  physNets @3 :List(PhysNet);
  siteInsts @4 :List(SiteInstance);
  properties @5 :List(Property);
}

struct CellPlacement {
  cellName @0 :UInt32;       # a name
  type @1 :UInt32;           # a name
  site @2 :UInt32;           # a name
  bel @3 :UInt32;            # a name
  pinMap @4 :List(PinMapping);
}

struct PinMapping {
  cellPin @0 :UInt32;        # a name
  bel @1 :UInt32;            # a name
  belPin @2 :UInt32;         # a name
}

struct PhysNet {
  name @0 :UInt32;           # a name
  type @1 :UInt32;           # 0 a signal, 1 logic 0, 2 logic 1
  sources @2 :List(RouteBranch);
  stubs @3 :List(RouteBranch);
}

struct RouteBranch {
  kind @0 :UInt32;           # 0 a BEL pin, 1 a site pin, 2 a PIP, 3 a site PIP
  first @1 :UInt32;          # a name: the site, or the tile of a PIP
  second @2 :UInt32;         # a name: the BEL, the site pin, or the wire that a PIP names first
  third @3 :UInt32;          # a name: the pin, or the wire that a PIP names second; 0 for a site pin
  forward @4 :UInt32;        # 1 for a PIP from its first wire to its second
  branches @5 :List(RouteBranch);
}

struct SiteInstance {
  site @0 :UInt32;           # a name
  type @1 :UInt32;           # a name
}

struct Property {
  key @0 :UInt32;            # a name
  value @1 :UInt32;          # a name
}

# The device that the program reads, in the language of Cap'n Proto: every data field has a slot of 32 bits, in the order
# in which they stand here, and every pointer field a word, in the same way. A name is a number: its place in `strList`.
@0xa9e4b7c1d2f35068;

struct Device {
  name @0 :Text;
  strList @1 :List(Text);
  siteTypeList @2 :List(SiteType);
  tileTypeList @3 :List(TileType);
  tileList @4 :List(Tile);
  wires @5 :List(Wire);
  nodes @6 :List(Node);
  primLibs @7 :AnyPointer;         # passed over
  exceptionMap @8 :AnyPointer;     # passed over
  cellBelMap @9 :List(CellBelMapping);
  packages @10 :List(Package);
  constants @11 :Constants;
  lutDefinitions @12 :LutDefinitions;
}

struct SiteType {
  name @0 :UInt32;                 # a name
  belPins @1 :List(BELPin);
  pins @2 :List(SitePin);
  bels @3 :List(BEL);
  sitePIPs @4 :List(SitePIP);
  siteWires @5 :List(SiteWire);
}

struct BELPin {
  name @0 :UInt32;                 # a name
  dir @1 :UInt32;                  # 0 input, 1 output, 2 inout
  bel @2 :UInt32;                  # a name
}

struct SitePin {
  name @0 :UInt32;                 # a name
  dir @1 :UInt32;                  # 0 input, 1 output, 2 inout
  belpin @2 :UInt32;               # an index into belPins
}

struct BEL {
  name @0 :UInt32;                 # a name
  category @1 :UInt32;             # 0 logic, 1 routing, 2 site port
  inversion @2 :UInt32;            # 0 none, 1 inverting
  nonInvertingPin @3 :UInt32;      # an index into belPins, for inversion 1
  invertingPin @4 :UInt32;         # an index into belPins, for inversion 1
}

struct SitePIP {
  inpin @0 :UInt32;                # an index into belPins
  outpin @1 :UInt32;               # an index into belPins
}

struct SiteWire {
  name @0 :UInt32;                 # a name
  pins @1 :List(UInt32);           # indexes into belPins
}

struct TileType {
  name @0 :UInt32;                 # a name
  siteTypes @1 :List(SiteTypeInTileType);
  wires @2 :List(UInt32);          # names
  pips @3 :List(PIP);
  constants @4 :List(WireConstantSources);
}

struct SiteTypeInTileType {
  primaryType @0 :UInt32;          # an index into siteTypeList
  primaryPinsToTileWires @1 :List(UInt32);   # names
}

struct PIP {
  wire0 @0 :UInt32;                # an index into the tile type's wires
  wire1 @1 :UInt32;                # an index into the tile type's wires
  directional @2 :UInt32;          # 0 or 1
  kind @3 :UInt32;                 # 0 conventional, 1 by pseudo cells
}

struct WireConstantSources {
  constant @0 :UInt32;             # 0 no preference, 1 gnd, 2 vcc
  wires @1 :List(UInt32);          # indexes into the tile type's wires
}

struct Tile {
  name @0 :UInt32;                 # a name
  type @1 :UInt32;                 # an index into tileTypeList
  row @2 :UInt32;
  col @3 :UInt32;
  sites @4 :List(Site);
}

struct Site {
  name @0 :UInt32;                 # a name
  type @1 :UInt32;                 # an index into the tile type's siteTypes
}

struct Wire {
  tile @0 :UInt32;                 # a name
  wire @1 :UInt32;                 # a name
}

struct Node {
  wires @0 :List(UInt32);          # indexes into the device's wires
}

struct CellBelMapping {
  cell @0 :UInt32;                 # a name
  commonPins @1 :List(CommonCellBelPinMaps);
}

struct CommonCellBelPinMaps {
  siteTypes @0 :List(SiteTypeBelEntry);
  pins @1 :List(CellBelPinEntry);
}

struct SiteTypeBelEntry {
  siteType @0 :UInt32;             # a name
  bels @1 :List(UInt32);           # names
}

struct CellBelPinEntry {
  cellPin @0 :UInt32;              # a name
  belPin @1 :UInt32;               # a name
}

struct Package {
  name @0 :UInt32;                 # a name
  packagePins @1 :List(PackagePin);
}

struct PackagePin {
  packagePin @0 :UInt32;           # a name
  siteTag @1 :UInt32;              # 0 no site, 1 a site
  site @2 :UInt32;                 # a name, for siteTag 1
}

struct Constants {
  gndCellType @0 :UInt32;          # a name
  gndCellPin @1 :UInt32;           # a name
  vccCellType @2 :UInt32;          # a name
  vccCellPin @3 :UInt32;           # a name
  siteSources @4 :List(SiteConstantSource);
  nodeSources @5 :List(NodeConstantSource);
}

struct SiteConstantSource {
  siteType @0 :UInt32;             # a name
  bel @1 :UInt32;                  # a name
  belPin @2 :UInt32;               # a name
  constant @3 :UInt32;             # 0 no preference, 1 gnd, 2 vcc
}

struct NodeConstantSource {
  tile @0 :UInt32;                 # a name
  wire @1 :UInt32;                 # a name
  constant @2 :UInt32;             # 0 no preference, 1 gnd, 2 vcc
}

struct LutDefinitions {
  lutCells @0 :List(LutCell);
  lutElements @1 :List(SiteTypeLutElements);
}

struct LutCell {
  equation @0 :UInt32;             # 0 invalid, 1 by initParam
  cell @1 :Text;
  inputPins @2 :List(Text);
  initParam @3 :Text;
}

struct SiteTypeLutElements {
  site @0 :Text;
  luts @1 :List(LutElement);
}

struct LutElement {
  width @0 :UInt32;
  bels @1 :List(LutBel);
}

struct LutBel {
  lowBit @0 :UInt32;
  highBit @1 :UInt32;
  name @2 :Text;
  inputPins @3 :List(Text);
  outputPin @4 :Text;
}

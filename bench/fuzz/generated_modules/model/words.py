"""Words of WGSL that no identifier may be, and those of operators and of operations on images."""

from ir import BUILT_IN, INTERPOLATION, SAMPLING, STORAGE_FORMAT
from ir import words as words_of
from tables import BINARY_SIGNS, UNARY_SIGNS

RESERVED = words_of("""
alias break case const const_assert continue continuing default diagnostic discard else enable false fn for if let
loop override requires return struct switch true var while NULL Self abstract active alignas alignof as asm
asm_fragment async attribute auto await become cast catch class co_await co_return co_yield coherent column_major
common compile compile_fragment concept const_cast consteval constexpr constinit crate debugger decltype delete
demote demote_to_helper do dynamic_cast enum explicit export extends extern external fallthrough filter final
finally friend from fxgroup get goto groupshared highp impl implements import inline instanceof interface layout
lowp macro macro_rules match mediump meta mod module move mut mutable namespace new nil noexcept noinline
nointerpolation non_coherent noncoherent noperspective null nullptr of operator package packoffset partition pass
patch pixelfragment precise precision premerge priv protected pub public readonly ref regardless register
reinterpret_cast require resource restrict self set shared sizeof smooth snorm static static_assert static_cast std
subroutine super target template this thread_local throw trait try type typedef typeid typename typeof union unless
unorm unsafe unsized use using varying virtual volatile wgsl where with writeonly yield
""")

FORMATS = [name.lower() for name in STORAGE_FORMAT.names()]

MATH_WORDS = words_of("""
abs min max clamp saturate {cos,sin,tan,acos,asin,atan} {cosh,sinh,tanh,acosh,asinh,atanh} atan2 radians degrees ceil
floor round fract trunc modf frexp ldexp exp exp2 log log2 pow dot dot4{I,U}8Packed cross distance length normalize
faceForward reflect refract sign fma mix step smoothstep sqrt inverseSqrt transpose determinant quantizeToF16
count{Trailing,Leading}Zeros countOneBits {reverse,extract,insert}Bits first{Trailing,Leading}Bit
{pack,unpack}{4x8,2x16}{snorm,unorm} {pack,unpack}2x16float {pack,unpack}4x{I,U}8 pack4x{I,U}8Clamp
""")

DERIVATIVES = words_of("{dpdx,dpdy,fwidth}{,Coarse,Fine}")

BUILTIN = {
    *FORMATS, *MATH_WORDS, *DERIVATIVES,
    *words_of("""
bool {i,u}{32,64} f{16,32,64} array atomic vec{2,3,4} mat{2,3,4}x{2,3,4} ptr sampler sampler_comparison
texture_{1d,2d,2d_array,3d,cube,cube_array,multisampled_2d,external,depth_2d,depth_2d_array,depth_cube}
texture_{depth_cube_array,depth_multisampled_2d,storage_1d,storage_2d,storage_2d_array,storage_3d} read write
read_write function private workgroup uniform storage push_constant bitcast all any select arrayLength
texture{Dimensions,Gather,GatherCompare,Load,NumLayers,NumLevels,NumSamples,Sample,SampleBias,SampleCompare}
texture{SampleCompareLevel,SampleGrad,SampleLevel,SampleBaseClampToEdge,Store} atomicLoad atomicStore
{storage,texture,workgroup}Barrier workgroupUniformLoad subgroupBallot subgroupElect
atomic{Add,Sub,And,Or,Xor,Min,Max,Exchange,CompareExchangeWeak}
subgroup{All,Any,Add,Mul,Max,Min,And,Or,Xor,ExclusiveAdd,ExclusiveMul,InclusiveAdd,InclusiveMul}
subgroup{BroadcastFirst,Broadcast,Shuffle,ShuffleDown,ShuffleUp,ShuffleXor} quad{Broadcast,SwapX,SwapY,SwapDiagonal}
i16 u16 binding_array acceleration_structure ray_query immediate task_payload incoming_ray_payload ray_payload
texture_{1d,3d}_array texture_multisampled_{1d,1d_array,2d_array,3d,3d_array,cube,cube_array}
texture_depth_{1d,1d_array,3d,3d_array} texture_depth_multisampled_{1d,1d_array,2d_array,3d,3d_array,cube,cube_array}
texture_storage_{1d_array,3d_array,cube,cube_array} textureSampleCompare{Bias,Grad}
textureAtomic{Add,Sub,And,Or,Xor,Min,Max,Exchange} subgroupBarrier traceRay coopLoad coopLoadT coopStore coopStoreT
coopMultiplyAdd coop_mat{8x8,8x16,16x8,16x16}
""")}

KEYWORDS = BUILTIN.union(RESERVED)

BINARY, UNARY = list(BINARY_SIGNS.values()), list(UNARY_SIGNS.values())
# the functions of mathematics that are generated, by their numbers, with how many operands they take
MATH = [
    ("abs", 1), ("min", 2), ("clamp", 3), ("insertBits", 4), ("dot", 2), ("fma", 3), ("smoothstep", 3),
    ("Outer", 2), ("Inverse", 1), ("modf", 1), ("frexp", 1)]
MATH += [(word, 2 if word.startswith("pack") else 1) for word in MATH_WORDS if word not in dict(MATH)]
RELATIONAL = ["all", "any", "IsNan", "IsInf"]
AXES = ["dpdx", "dpdy", "fwidth"]
CONTROLS = ["", "Coarse", "Fine"]

# the members of the structs that WGSL's own functions give
MEMBERS = ["fract", "whole", "exp", "old_value", "exchanged"]

# what atomics do, by their numbers; the last one is an exchange that compares
ATOMICS = ["Add", "Sub", "And", "Xor", "Or", "Min", "Max", "Exchange", "CompareExchangeWeak"]
COMPARING = ATOMICS.index("CompareExchangeWeak")
# the memories of barriers, by their bits
BARRIERS = ["storageBarrier", "workgroupBarrier", "subgroupBarrier", "textureBarrier"]
# gathers in a subgroup, and how many indexes each takes
GATHERS = [
    ("subgroupBroadcastFirst", 0), ("subgroupBroadcast", 1), ("subgroupShuffle", 1), ("subgroupShuffleDown", 1),
    ("subgroupShuffleUp", 1), ("subgroupShuffleXor", 1), ("quadBroadcast", 1), ("quadSwapX", 0), ("quadSwapY", 0),
    ("quadSwapDiagonal", 0)]
# collectives, by what is collected and the operation
COLLECTIVES = ["", "Exclusive", "Inclusive"]
OPERATIONS = ["All", "Any", "Add", "Mul", "Max", "Min", "And", "Or", "Xor"]
SCANNED = ["Add", "Mul"]

# questions to images, by their numbers
QUERIES = ["textureDimensions", "textureNumLevels", "textureNumLayers", "textureNumSamples"]
# the calls that ask the world for a value
ASKING = {
    *DERIVATIVES, *QUERIES,
    *words_of("textureLoad texture{Sample,Gather}{,Compare} textureSample{,Compare}{Level,Bias,Grad}"),
    "textureSampleBaseClampToEdge", "atomicLoad", "atomicStore", *(f"atomic{word}" for word in ATOMICS),
    *(f"textureAtomic{word}" for word in ATOMICS[:COMPARING]), *(word for word, _ in GATHERS), *BARRIERS,
    *words_of("subgroup{All,Any,Add,Mul,Max,Min,And,Or,Xor} subgroup{Exclusive,Inclusive}{Add,Mul} subgroupBallot"),
    *words_of("textureStore workgroupUniformLoad coopStore coopStoreT coopLoad coopLoadT traceRay")}

# built-in values, with their word or none, where it isn't the name in small letters
BUILTIN_NAMES = BUILT_IN.names()
BUILTIN_WORDS = {
    "WorkGroupId": "workgroup_id", "NumWorkGroups": "num_workgroups", "RayTmin": "ray_t_min",
    **dict.fromkeys(BUILTIN_NAMES[-6:])}
INTERPOLATIONS = INTERPOLATION.names()
SAMPLINGS = SAMPLING.names()

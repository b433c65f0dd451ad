"""What goes with names of the IR: where operands are told, which numbers sizes are, and the words and signs of WGSL."""

from ir import ADDRESS_SPACE, BINARY_OPERATOR, COOPERATIVE_SIZE, UNARY_OPERATOR, VECTOR_SIZE

# where the operands of expressions and statements are told, in the order in which WGSL has them
OPERANDS = {
    "Compose": "components", "Access": "base index", "AccessIndex": "base", "Splat": "value", "Swizzle": "vector",
    "Load": "pointer", "Unary": "expr", "Binary": "left right", "Select": "reject accept condition",
    "Derivative": "expr", "Relational": "argument", "Math": "arg arg1 arg2 arg3", "As": "expr",
    "CooperativeMultiplyAdd": "a b c", "CooperativeLoad": "data.pointer data.stride",
    "RayQueryGetIntersection": "query", "RayQueryVertexPositions": "query", "ImageQuery": "image query.Size.level",
    "ImageLoad": "image coordinate array_index sample level",
    "ImageSample": "image sampler coordinate array_index depth_ref level.Exact level.Bias level.Gradient.x "
                   "level.Gradient.y offset",
    "If": "condition", "Switch": "selector", "Loop": "break_if", "Return": "value", "Store": "pointer value",
    "Call": "arguments", "RayQuery": "query", "Atomic": "pointer fun.Exchange.compare value",
    "ImageAtomic": "image coordinate array_index fun.Exchange.compare value",
    "ImageStore": "image coordinate array_index value", "WorkGroupUniformLoad": "pointer",
    "SubgroupBallot": "predicate", "SubgroupCollectiveOperation": "argument",
    "SubgroupGather": "argument mode.Broadcast mode.Shuffle mode.ShuffleDown mode.ShuffleUp mode.ShuffleXor "
                      "mode.QuadBroadcast",
    "CooperativeStore": "target data.pointer data.stride",
    "RayPipelineFunction": "TraceRay.acceleration_structure TraceRay.descriptor TraceRay.payload"}
BLOCKS = {"If": ("accept", "reject"), "Loop": ("body", "continuing")}

VECTOR_SIZES = dict(zip(VECTOR_SIZE.names(), (2, 3, 4)))
COOPERATIVE_SIZES = dict(zip(COOPERATIVE_SIZE.names(), (8, 16)))

# the words of address spaces, where one is not the name in small letters
SPACE_WORDS = {
    **{name: name.lower() for name in ADDRESS_SPACE.names()},
    "WorkGroup": "workgroup", "TaskPayload": "task_payload", "RayPayload": "ray_payload",
    "IncomingRayPayload": "incoming_ray_payload"}

BINARY_SIGNS = dict(zip(
    BINARY_OPERATOR.names(), "+ - * / % == != < <= > >= & ^ | && || << >>".split()))
UNARY_SIGNS = dict(zip(UNARY_OPERATOR.names(), "- ! ~".split()))

struct Camera {
    view_projection: mat4x4<f32>,
    eye: vec3<f32>,
}

struct Sun {
    direction: vec3<f32>,
    ambient: f32,
    colour: vec3<f32>,
}

struct Varyings {
    @builtin(position) position: vec4<f32>,
    @location(0) world: vec3<f32>,
    @location(1) normal: vec3<f32>,
    @location(2) uv: vec2<f32>,
}

@group(0) @binding(0) 
var<uniform> camera: Camera;
@group(0) @binding(1) 
var<uniform> sun: Sun;
@group(1) @binding(0) 
var diffuse: texture_2d<f32>;
@group(1) @binding(1) 
var filtering: sampler;

@vertex 
fn transform(@location(0) position: vec3<f32>, @location(1) normal: vec3<f32>, @location(2) uv: vec2<f32>) -> Varyings {
    var out: Varyings;

    let _e7 = camera.view_projection;
    out.position = (_e7 * vec4<f32>(position, 1f));
    out.world = position;
    out.normal = normal;
    out.uv = uv;
    let _e18 = out;
    return _e18;
}

@fragment 
fn shade(seen: Varyings) -> @location(0) vec4<f32> {
    let normal_1 = normalize(seen.normal);
    let _e5 = sun.direction;
    let to_light = normalize(-(_e5));
    let _e10 = camera.eye;
    let to_eye = normalize((_e10 - seen.world));
    let halfway = normalize((to_light + to_eye));
    let lit = max(dot(normal_1, to_light), 0f);
    let gloss = pow(max(dot(normal_1, halfway), 0f), 32f);
    let base = textureSample(diffuse, filtering, seen.uv);
    let _e31 = sun.colour;
    let _e35 = sun.ambient;
    let colour = (((base.xyz * _e31) * (_e35 + (0.85f * lit))) + vec3((0.4f * gloss)));
    return vec4<f32>(colour, base.w);
}

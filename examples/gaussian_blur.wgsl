struct Pass {
    direction: vec2<f32>,
}

@group(0) @binding(0) 
var picture: texture_2d<f32>;
@group(0) @binding(1) 
var filtering: sampler;
@group(0) @binding(2) 
var<uniform> axis: Pass;

@vertex 
fn cover(@builtin(vertex_index) index: u32) -> @builtin(position) vec4<f32> {
    let corner = vec2<f32>(f32(((index << 1u) & 2u)), f32((index & 2u)));
    return vec4<f32>(((corner * 2f) - vec2(1f)), 0f, 1f);
}

@fragment 
fn blur(@builtin(position) at: vec4<f32>) -> @location(0) vec4<f32> {
    var weights: array<f32, 5> = array<f32, 5>(0.227027f, 0.1945946f, 0.1216216f, 0.054054f, 0.016216f);
    var sum: vec4<f32>;
    var tap: u32 = 1u;

    let _e9 = textureDimensions(picture);
    let texel = (vec2(1f) / vec2<f32>(_e9));
    let uv = (at.xy * texel);
    let _e18 = textureSampleLevel(picture, filtering, uv, 0f);
    let _e21 = weights[0];
    sum = (_e18 * _e21);
    loop {
        let _e26 = tap;
        if (_e26 < 5u) {
        } else {
            break;
        }
        {
            let _e31 = axis.direction;
            let _e33 = tap;
            let offset = ((_e31 * texel) * f32(_e33));
            let _e41 = textureSampleLevel(picture, filtering, (uv + offset), 0f);
            let _e46 = textureSampleLevel(picture, filtering, (uv - offset), 0f);
            let _e48 = tap;
            let _e51 = weights[_e48];
            let _e55 = sum;
            sum = (_e55 + ((_e41 + _e46) * _e51));
        }
        continuing {
            let _e60 = tap;
            tap = (_e60 + 1u);
        }
    }
    let _e64 = sum;
    return _e64;
}

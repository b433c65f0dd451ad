struct Particle {
    position: vec3<f32>,
    age: f32,
    velocity: vec3<f32>,
    size: f32,
}

struct Simulation {
    gravity: vec3<f32>,
    step: f32,
    count: u32,
}

const DRAG: f32 = 0.98f;

@id(0) override lifetime: f32 = 8f;

@group(0) @binding(0) 
var<uniform> simulation: Simulation;
@group(0) @binding(1) 
var<storage, read_write> particles: array<Particle>;

fn bounce(velocity: vec3<f32>, normal: vec3<f32>) -> vec3<f32> {
    return (reflect(velocity, normal) * 0.6f);
}

@compute @workgroup_size(64, 1, 1) 
fn simulate(@builtin(global_invocation_id) id: vec3<u32>) {
    var particle: Particle;

    let index = id.x;
    let _e4 = simulation.count;
    if (index >= _e4) {
        return;
    }
    let _e9 = particles[index];
    particle = _e9;
    let step_ = simulation.step;
    let _e15 = particle.velocity;
    let _e18 = simulation.gravity;
    particle.velocity = ((_e15 + (_e18 * step_)) * DRAG);
    let _e27 = particle.position;
    let _e30 = particle.velocity;
    particle.position = (_e27 + (_e30 * step_));
    let _e38 = particle.position.y;
    if (_e38 < 0f) {
        particle.position.y = 0f;
        let _e47 = particle.velocity;
        let _e52 = bounce(_e47, vec3<f32>(0f, 1f, 0f));
        particle.velocity = _e52;
    }
    let _e57 = particle.age;
    particle.age = (_e57 + step_);
    let _e65 = particle.age;
    particle.size = mix(0.05f, 0.002f, saturate((_e65 / lifetime)));
    let _e75 = particle;
    particles[index] = _e75;
    return;
}

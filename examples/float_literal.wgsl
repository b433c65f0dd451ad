fn double(x: i32) -> i32 {
    return (x + x);
}

fn half(x_1: f32) -> f32 {
    return (x_1 * 0.5f);
}


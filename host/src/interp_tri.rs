// Copyright 2026 Lars Brubaker
//
// Licensed under the Apache License, Version 2.0 (the "License");
// you may not use this file except in compliance with the License.
// You may obtain a copy of the License at
//
//      http://www.apache.org/licenses/LICENSE-2.0
//
// Unless required by applicable law or agreed to in writing, software
// distributed under the License is distributed on an "AS IS" BASIS,
// WITHOUT WARRANTIES OR CONDITIONS OF ANY KIND, either express or implied.
// See the License for the specific language governing permissions and
// limitations under the License.

//! What `bench` times beside the unit's calls along a curve: of the Rust's src/interp_tri.rs the functions for a curve, unchanged but for `pub`, and of its
//! src/linalg.rs what these take.

use std::ops::Sub;

#[derive(Clone, Copy)]
pub struct Vec3 {
    pub x: f64,
    pub y: f64,
    pub z: f64,
}

impl Vec3 {
    #[inline]
    pub const fn new(x: f64, y: f64, z: f64) -> Self {
        Self { x, y, z }
    }
}

impl Sub for Vec3 {
    type Output = Vec3;
    fn sub(self, b: Vec3) -> Vec3 {
        Vec3::new(self.x - b.x, self.y - b.y, self.z - b.z)
    }
}

#[derive(Clone, Copy)]
pub struct Vec4 {
    pub x: f64,
    pub y: f64,
    pub z: f64,
    pub w: f64,
}

impl Vec4 {
    #[inline]
    pub const fn new(x: f64, y: f64, z: f64, w: f64) -> Self {
        Self { x, y, z, w }
    }
}

/// Normalize from homogeneous coordinates back to Vec3
fn hnormalize(v: Vec4) -> Vec3 {
    if v.w == 0.0 {
        Vec3::new(v.x, v.y, v.z)
    } else {
        Vec3::new(v.x / v.w, v.y / v.w, v.z / v.w)
    }
}

fn lerp4(a: Vec4, b: Vec4, t: f64) -> Vec4 {
    Vec4::new(
        a.x + (b.x - a.x) * t,
        a.y + (b.y - a.y) * t,
        a.z + (b.z - a.z) * t,
        a.w + (b.w - a.w) * t,
    )
}

/// Evaluate cubic Bezier at parameter x, returning two control points
/// for the resulting linear segment (used for further Bezier evaluation).
/// Returns (left, right) Vec4 pair.
pub fn cubic_bezier_2_linear(p0: Vec4, p1: Vec4, p2: Vec4, p3: Vec4, x: f64) -> [Vec4; 2] {
    let p12 = lerp4(p1, p2, x);
    let left = lerp4(lerp4(p0, p1, x), p12, x);
    let right = lerp4(p12, lerp4(p2, p3, x), x);
    [left, right]
}

/// Get point on the Bezier segment defined by two control points
pub fn bezier_point(points: &[Vec4; 2], x: f64) -> Vec3 {
    hnormalize(lerp4(points[0], points[1], x))
}

/// Get tangent direction at the Bezier segment
pub fn bezier_tangent(points: &[Vec4; 2]) -> Vec3 {
    safe_normalize(hnormalize(points[1]) - hnormalize(points[0]))
}

fn safe_normalize(v: Vec3) -> Vec3 {
    let len = (v.x * v.x + v.y * v.y + v.z * v.z).sqrt();
    if len < 1e-30 {
        Vec3::new(0.0, 0.0, 0.0)
    } else {
        Vec3::new(v.x / len, v.y / len, v.z / len)
    }
}

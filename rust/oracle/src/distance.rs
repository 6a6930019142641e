//! How far the meshes of jobs with a turn or a bottom are from hexx's.

use crate::MeshInfo;
use crate::line::bits;
use glam::Vec3;

/// Jobs in which no greater number is turned or added are told apart.
pub const MODERATE: f32 = 1000.0;

/// The greatest differences over some jobs.
#[derive(Debug, Clone)]
pub struct Greatest {
    pub jobs: usize,
    /// Of a component of a position, and that over the job's magnitude.
    position: f32,
    ratio: f32,
    normal: f32,
    /// Jobs whose uvs or indices differ in a bit.
    others: usize,
    /// Components where just one of the two is finite.
    unlike: usize,
    /// Components where neither is.
    endless: usize,
}

impl Greatest {
    /// Of no job.
    pub const NONE: Self = Self {
        jobs: 0,
        position: 0.0,
        ratio: 0.0,
        normal: 0.0,
        others: 0,
        unlike: 0,
        endless: 0,
    };

    /// Counts in a mesh of hexx's and the one of the steps.
    pub fn add(&mut self, own: &MeshInfo, ours: &MeshInfo, most: f32) {
        self.jobs += 1;
        let distance = self.distance(&own.vertices, &ours.vertices);
        self.position = self.position.max(distance);
        if distance > 0.0 {
            self.ratio = self.ratio.max(distance / most);
        }
        let distance = self.distance(&own.normals, &ours.normals);
        self.normal = self.normal.max(distance);
        let uvs = |mesh: &MeshInfo| -> Vec<_> {
            let all = mesh.uvs.iter().flat_map(|v| v.to_array());
            all.map(bits).collect()
        };
        let same = uvs(own) == uvs(ours) && own.indices == ours.indices;
        self.others += usize::from(!same);
    }

    fn distance(&mut self, own: &[Vec3], ours: &[Vec3]) -> f32 {
        assert_eq!(own.len(), ours.len());
        let both = own.iter().zip(ours);
        let pairs = both.flat_map(|(a, b)| a.to_array().into_iter().zip(b.to_array()));
        let mut most = 0.0_f32;
        for (own, ours) in pairs {
            match (own.is_finite(), ours.is_finite()) {
                (true, true) => most = most.max((own - ours).abs()),
                (false, false) => self.endless += 1,
                _ => self.unlike += 1,
            }
        }
        most
    }
}

impl std::fmt::Display for Greatest {
    fn fmt(&self, f: &mut std::fmt::Formatter<'_>) -> std::fmt::Result {
        let Self {
            jobs,
            position,
            ratio,
            normal,
            others,
            unlike,
            endless,
        } = self;
        write!(
            f,
            "jobs {jobs}, position {position:e}, over the magnitude {ratio:e}, normal {normal:e}, \
             other uvs or indices {others}, finite in one {unlike}, in neither {endless}"
        )
    }
}

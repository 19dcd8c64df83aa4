//! The stepped calls of request A7: a point is asked for and its image handed in, one after the other, and the close runs on the images that were kept.
//! The draw and the steps are the whole-list way's own (`filter`); here stands what is kept meanwhile and what is refused.

use crate::filter::{alike, front, refuse_if, written, Filter, Open, Trouble, Way};
use crate::float::Float;
use crate::kinds::Kind;
use crate::refusal::{Refusal, Slice};

/// What a stepped call keeps. With nothing open, and the whole-list way, all of it is empty.
#[derive(Default)]
pub struct Kept<T> {
    /// How many images are in.
    pub at: usize,
    /// Whether the point of the next one was asked for.
    pub asked: bool,
    /// The first image's m; 0 before it, and in a prediction.
    pub m: usize,
    /// The images, one behind the other.
    pub images: Vec<T>,
    /// The points as they were handed out. The published Rust must show the same ones to the function that it is given.
    pub handed: Vec<T>,
}

impl<T: Float> Filter<T> {
    pub fn open_prediction_stepped(&mut self) -> Result<(), Trouble> {
        self.settable()?;
        self.begin_prediction(Way::Stepped)
    }

    pub fn open_correction_stepped(&mut self) -> Result<(), Trouble> {
        self.settable()?;
        self.begin_correction(Way::Stepped)
    }

    fn has_all_images(&self) -> bool {
        self.kept.at == 2 * self.n + 1
    }

    /// The next point; asked for again, the same one.
    pub fn ask(&mut self, buffer: &mut [T]) -> Result<(), Trouble> {
        refuse_if(self.open.way() != Some(Way::Stepped) || self.has_all_images(), Refusal::Stage)?;
        let n = self.sized()?;
        let start = self.kept.at * n;
        written(&self.drawn_points[start..start + n], buffer)?;
        if self.kept.asked {
            return alike("a point asked for twice", &self.kept.handed[start..], &buffer[..n]);
        }
        self.kept.handed.extend(&buffer[..n]);
        self.kept.asked = true;
        Ok(())
    }

    /// The checks that both images begin with. After the last one no point is asked for, so that 3 comes by itself.
    fn awaited(&self, wanted: Open) -> Result<usize, Refusal> {
        refuse_if(self.open != wanted || !self.kept.asked, Refusal::Stage)?;
        self.sized()
    }

    fn keep(&mut self, image: Vec<T>) {
        self.kept.images.extend(image);
        self.kept.at += 1;
        self.kept.asked = false;
    }

    pub fn image_of_prediction(&mut self, image: &[T]) -> Result<(), Trouble> {
        let n = self.awaited(Open::Prediction(Way::Stepped))?;
        self.keep(front(Slice::Points, image, n)?);
        Ok(())
    }

    pub fn image_of_correction(&mut self, m: u64, image: &[T]) -> Result<(), Trouble> {
        self.awaited(Open::Correction(Way::Stepped))?;
        let is_first = self.kept.at == 0;
        refuse_if(!(1..=4).contains(&m) || !is_first && m != self.kept.m as u64, Refusal::Size)?;
        let image = front(Slice::Points, image, m as usize)?;
        self.kept.m = m as usize;
        self.keep(image);
        Ok(())
    }

    /// The checks that all stepped closes begin with, and the images.
    fn finished(&self, wanted: Open) -> Result<Vec<T>, Refusal> {
        refuse_if(self.open != wanted || !self.has_all_images(), Refusal::Stage)?;
        self.sized()?;
        Ok(self.kept.images.clone())
    }

    /// For both closes of a correction: 1 also where m isn't the first image's.
    fn observed(&self, m: u64) -> Result<Vec<T>, Refusal> {
        let images = self.finished(Open::Correction(Way::Stepped))?;
        refuse_if(m != self.kept.m as u64, Refusal::Size)?;
        Ok(images)
    }

    pub fn close_prediction_stepped(&mut self) -> Result<(), Trouble> {
        let images = self.finished(Open::Prediction(Way::Stepped))?;
        self.predicted(&images)
    }

    pub fn close_correction_stepped(&mut self, m: u64, z: &[T], r: &[T], kinds: [Kind<T>; 4]) -> Result<(), Trouble> {
        let images = self.observed(m)?;
        self.weighted(m, z, r, kinds, &images)
    }

    pub fn close_flat_stepped(&mut self, m: u64, z: &[T], r: &[T]) -> Result<(), Trouble> {
        let images = self.observed(m)?;
        self.flat(m, z, r, &images)
    }
}

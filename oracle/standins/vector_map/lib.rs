//! Another stand-in for `vec_map`, for `bench/run`: a plain vector.

#[derive(Debug)]
pub struct VecMap<V>(Vec<Option<V>>);

impl<V> VecMap<V> {
    pub fn with_capacity(capacity: usize) -> Self {
        VecMap(Vec::with_capacity(capacity))
    }

    pub fn insert(&mut self, key: usize, value: V) {
        if key >= self.0.len() {
            self.0.resize_with(key + 1, || None);
        }
        self.0[key] = Some(value);
    }

    pub fn remove(&mut self, key: usize) {
        if let Some(place) = self.0.get_mut(key) {
            *place = None;
        }
    }

    pub fn values(&self) -> impl Iterator<Item = &V> {
        self.0.iter().flatten()
    }

    pub fn iter(&self) -> impl Iterator<Item = (usize, &V)> {
        let places = self.0.iter().enumerate();
        places.filter_map(|(key, place)| Some((key, place.as_ref()?)))
    }
}

//! What the workers share.
use std::sync::Mutex;

use crate::dags::Dags;
use crate::plane::Plane;
use crate::site::Site;

pub struct Server {
    pub dags: Dags,
    pub site: Site,
    pub plane: Mutex<Plane>,
}

//! Stand-in: parking_lot's RwLock over std's, without poisoning. Its Debug form shows the lock's address, so that the driver can
//! tell which file stands at a path and which numbers share one.
use std::sync::{RwLockReadGuard, RwLockWriteGuard};

pub struct RwLock<T>(std::sync::RwLock<T>);

impl<T> RwLock<T> {
  pub fn new(t: T) -> Self {
    Self(std::sync::RwLock::new(t))
  }

  pub fn read(&self) -> RwLockReadGuard<'_, T> {
    self.0.read().unwrap_or_else(|e| e.into_inner())
  }

  pub fn write(&self) -> RwLockWriteGuard<'_, T> {
    self.0.write().unwrap_or_else(|e| e.into_inner())
  }
}

impl<T: std::fmt::Debug> std::fmt::Debug for RwLock<T> {
  fn fmt(&self, f: &mut std::fmt::Formatter<'_>) -> std::fmt::Result {
    write!(f, "Lock@{:x}({:?})", self as *const _ as usize, self.read())
  }
}

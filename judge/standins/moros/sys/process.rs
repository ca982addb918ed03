//! The running process: its working directory can be set, and it has no environment.
use alloc::string::String;
use spin::Mutex;

static DIR: Mutex<String> = Mutex::new(String::new());

pub fn set_dir(dir: &str) {
    *DIR.lock() = String::from(dir);
}

pub fn dir() -> String {
    DIR.lock().clone()
}

pub fn env_var(_key: &str) -> Option<String> {
    None
}

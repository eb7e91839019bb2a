//! Stand-in for the original's parameters. Their values are handed in with each block
//! (`render::AudioParamValues`), so nothing is kept here.

#[derive(Debug)]
pub struct AudioParam;

impl AudioParam {
    pub fn set_automation_rate_constrained(&mut self, _: bool) {}
    pub fn set_value(&self, _: f32) {}
}

pub struct AudioParamDescriptor {
    pub name: String,
    pub min_value: f32,
    pub max_value: f32,
    pub default_value: f32,
    pub automation_rate: AutomationRate,
}

pub enum AutomationRate {
    K,
}

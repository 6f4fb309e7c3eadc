//! One medium and, while it is mounted, the original's store on it: mounting,
//! changing the script, and reading the state off the original.

use crate::number::{said, BAD_REGION, CORRUPTED, TOO_HIGH};
use crate::said::Said;
use crate::space::walk;
use arxia_storage::{BatchOp, StorageBackend};
use arxia_storage_flash::FlashStorage;
use outcome::{Outcome, Space, CLEAN, DEBRIS, PENDING};
use sequential_storage::flash::ScriptedFlash;
use sequential_storage::image;
use sequential_storage::map::MapConfig;

pub(crate) type Store = FlashStorage<ScriptedFlash>;

enum Medium {
    Loose(ScriptedFlash),
    Mounted(Box<Store>),
}

pub struct Session {
    medium: Medium,
}

/// A region of erased bytes.
pub fn erased(len: usize) -> Vec<u8> {
    vec![image::ERASED; len]
}

impl Session {
    /// A medium that is not mounted, with an empty script.
    pub fn new(region: Vec<u8>) -> Self {
        Session { medium: Medium::Loose(ScriptedFlash { region, ..ScriptedFlash::default() }) }
    }

    /// A mounted store of the given health on any medium. The original lets
    /// nobody set its health, so it is led there on a region of its own, and
    /// then finds itself on the medium that is wanted.
    pub fn with_health(health: u64, flash: ScriptedFlash) -> Self {
        let mut session = Session::new(erased(8192));
        assert_eq!(session.mount(0, 0).answer, 1);
        let one = [BatchOp::Delete { key: b"x" }];
        match health {
            CLEAN => {}
            DEBRIS => {
                session.set_script(&[3], 0);
                assert!(session.store().apply_batch(&one).is_err());
            }
            _ => {
                session.set_script(&[0, 3, 3], 0);
                assert!(session.store().apply_batch(&one).is_err());
            }
        }
        assert_eq!(session.health(), health);
        session.with_flash(|own| *own = flash);
        session
    }

    pub fn is_mounted(&self) -> bool {
        matches!(self.medium, Medium::Mounted(_))
    }

    /// Look at the medium, or change it behind the store's back.
    pub fn with_flash<R>(&mut self, look: impl FnOnce(&mut ScriptedFlash) -> R) -> R {
        match &mut self.medium {
            Medium::Loose(flash) => look(flash),
            Medium::Mounted(store) => look(&mut store.flash_mut()),
        }
    }

    /// A new script. The cut stays as it is.
    pub fn set_script(&mut self, script: &[u8], at: u64) {
        self.with_flash(|flash| {
            flash.script = script.to_vec();
            flash.at = at;
        });
    }

    /// Mount, or mount again, on the bytes as they are.
    pub fn mount(&mut self, start: u32, at: u64) -> Outcome {
        let mut flash = self.dismount();
        flash.at = at;
        flash.cut = false;
        flash.calls = 0;
        let said = match self.try_mount(flash, start) {
            Ok(()) => Said::answer(1),
            Err(said) => said,
        };
        self.outcome(said)
    }

    fn try_mount(&mut self, flash: ScriptedFlash, start: u32) -> Result<(), Said> {
        let end = u64::from(start) + flash.region.len() as u64;
        let Ok(end) = u32::try_from(end) else {
            self.medium = Medium::Loose(flash);
            return Err(Said::refused(BAD_REGION, [TOO_HIGH, 0, 0]));
        };
        // The image test stands between the original's region tests and its
        // recovery, which are one call; so its region tests are asked first.
        let region_passes = MapConfig::<ScriptedFlash>::try_new(start..end).is_ok();
        if region_passes && !image::is_good(&flash.region) {
            self.medium = Medium::Loose(flash);
            return Err(Said::refused(CORRUPTED, [0; 3]));
        }
        match Store::mount(flash, start..end) {
            Ok(store) => {
                self.medium = Medium::Mounted(Box::new(store));
                Ok(())
            }
            Err(failure) => {
                self.medium = Medium::Loose(failure.flash);
                Err(said(failure.error))
            }
        }
    }

    fn dismount(&mut self) -> ScriptedFlash {
        let nothing = Medium::Loose(ScriptedFlash::default());
        match std::mem::replace(&mut self.medium, nothing) {
            Medium::Loose(flash) => flash,
            Medium::Mounted(store) => store.into_flash(),
        }
    }

    /// The mounted store. A call without one is a slip of the caller.
    pub(crate) fn store(&mut self) -> &mut Store {
        match &mut self.medium {
            Medium::Mounted(store) => store,
            Medium::Loose(_) => panic!("a call needs a mounted store"),
        }
    }

    /// The health, which the original shows nowhere but in its Debug text.
    /// Without a mounted store it is Pending.
    pub fn health(&self) -> u64 {
        let Medium::Mounted(store) = &self.medium else {
            return PENDING;
        };
        let shown = format!("{store:?}");
        if shown.contains("\"clean\"") {
            CLEAN
        } else if shown.contains("\"debris\"") {
            DEBRIS
        } else {
            assert!(shown.contains("\"pending\""), "unknown health in {shown}");
            PENDING
        }
    }

    /// The room of the region as it is. An outcome is without it, so that the
    /// walk is not in a call's time.
    pub fn space(&mut self) -> Space {
        self.with_flash(|flash| walk(&flash.region))
    }

    /// Every call but mount: the image test, then the call. The item calls are
    /// counted from here.
    pub(crate) fn on_good_image(&mut self, call: impl FnOnce(&mut Store) -> Said) -> Outcome {
        let store = self.store();
        let good = {
            let mut flash = store.flash_mut();
            flash.calls = 0;
            image::is_good(&flash.region)
        };
        let said = if good { call(store) } else { Said::refused(CORRUPTED, [0; 3]) };
        self.outcome(said)
    }

    fn outcome(&mut self, said: Said) -> Outcome {
        let health = self.health();
        self.with_flash(|flash| Outcome {
            answer: said.answer,
            number: said.number,
            v: said.v,
            count: said.count,
            length: said.length,
            health,
            at: flash.at,
            cut: u64::from(flash.cut),
            space: Space::default(),
            calls: flash.calls,
        })
    }
}

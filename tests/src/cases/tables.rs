//! The writing side of the request file, for the cases: any table, faulty ones too.

#[derive(Clone, Debug)]
pub struct DeviceRecord {
    pub transition: u8,
    pub working: u16,
    pub sleeping: u16,
    pub moving: u16,
}

#[derive(Clone, Debug)]
pub struct TaskRecord {
    pub period: u16,
    pub running: u16,
    pub devices: u8,
}

#[derive(Clone, Debug)]
pub struct JobRecord {
    pub release: u16,
    pub deadline: u16,
    pub running: u16,
    pub devices: u8,
}

#[derive(Clone, Debug, Default)]
pub struct Tables {
    pub horizon: u16,
    pub devices: Vec<DeviceRecord>,
    pub tasks: Vec<TaskRecord>,
    pub jobs: Vec<JobRecord>,
}

impl Tables {
    /// The request file. Nothing is checked: the cases need files that are wrong.
    pub fn bytes(&self) -> Vec<u8> {
        let mut file = Vec::new();
        put(&mut file, &[self.horizon]);
        file.push(self.devices.len() as u8);
        for device in &self.devices {
            file.push(device.transition);
            put(&mut file, &[device.working, device.sleeping, device.moving]);
        }
        file.push(self.tasks.len() as u8);
        for task in &self.tasks {
            put(&mut file, &[task.period, task.running]);
            file.push(task.devices);
        }
        file.push(self.jobs.len() as u8);
        for job in &self.jobs {
            put(&mut file, &[job.release, job.deadline, job.running]);
            file.push(job.devices);
        }
        file
    }

    /// The mark of another kind, then the file with these device records in the place of its own.
    pub fn marked(&self, mark: &[u8], records: &[Vec<u8>]) -> Vec<u8> {
        let file = self.bytes();
        let rest = self.count_places()[1];
        [mark, &file[..3], &records.concat(), &file[rest..]].concat()
    }

    /// Where the three count bytes stand: devices, tasks, jobs.
    pub fn count_places(&self) -> [usize; 3] {
        let tasks = 3 + 7 * self.devices.len();
        [2, tasks, tasks + 1 + 5 * self.tasks.len()]
    }

    /// The set of all devices.
    pub fn all_devices(&self) -> u8 {
        ((1u16 << self.devices.len()) - 1) as u8
    }
}

fn put(file: &mut Vec<u8>, numbers: &[u16]) {
    for number in numbers {
        file.extend(number.to_be_bytes());
    }
}

/// The bytes of a file as the figures write it, two digits each.
pub fn hex(text: &str) -> Vec<u8> {
    let byte = |place| u8::from_str_radix(&text[place..place + 2], 16).expect("hex");
    (0..text.len()).step_by(2).map(byte).collect()
}

/// Device A of the figures.
pub fn device_a() -> DeviceRecord {
    DeviceRecord {
        transition: 1,
        working: 5,
        sleeping: 1,
        moving: 3,
    }
}

/// A job as the figures write it: (a, d, c), then its device set.
pub fn job(release: u16, deadline: u16, running: u16, devices: u8) -> JobRecord {
    JobRecord {
        release,
        deadline,
        running,
        devices,
    }
}

pub fn task(period: u16, running: u16, devices: u8) -> TaskRecord {
    TaskRecord {
        period,
        running,
        devices,
    }
}

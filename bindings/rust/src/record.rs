//! The card's sensor record (source document 004) as values, and the 87 bytes in which the library takes and gives
//! them: the values in the order of the structs below, each in its own number of bytes, low byte first.

/// How many bytes the values of a record take in the library's calls. (The card's own record has 64.)
pub(crate) const LENGTH: usize = 87;

/// A value with a place in these bytes.
trait Value {
    /// The value that begins at a place, which moves behind it.
    fn take(bytes: &[u8; LENGTH], at: &mut usize) -> Self;
    /// Stores the value at a place, which moves behind it.
    fn put(&self, at: &mut usize, bytes: &mut [u8; LENGTH]);
}

macro_rules! number {
    ($($kind:ty, $length:literal;)*) => { $(
        impl Value for $kind {
            fn take(bytes: &[u8; LENGTH], at: &mut usize) -> Self {
                let mut own = [0; $length];
                own.copy_from_slice(&bytes[*at..*at + $length]);
                *at += $length;
                <$kind>::from_le_bytes(own)
            }
            fn put(&self, at: &mut usize, bytes: &mut [u8; LENGTH]) {
                bytes[*at..*at + $length].copy_from_slice(&self.to_le_bytes());
                *at += $length;
            }
        }
    )* };
}

number! {
    u8, 1;
    i8, 1;
    u16, 2;
    u32, 4;
}

/// A struct of values, whose place is the places of its fields in their order.
macro_rules! values {
    ($(#[$about:meta])* pub struct $name:ident { $($(#[$says:meta])* pub $field:ident: $kind:ty,)* }) => {
        $(#[$about])*
        #[derive(Clone, Copy, Debug, Default, PartialEq, Eq)]
        pub struct $name { $($(#[$says])* pub $field: $kind,)* }

        impl Value for $name {
            fn take(bytes: &[u8; LENGTH], at: &mut usize) -> Self {
                // Fields of a struct expression are computed in the order in which they stand.
                $name { $($field: Value::take(bytes, at),)* }
            }
            fn put(&self, at: &mut usize, bytes: &mut [u8; LENGTH]) {
                $(self.$field.put(at, bytes);)*
            }
        }
    };
}

values! {
    /// The whole record. Every field of the source is here; a value too big for its bits can be held, and breaks the
    /// record's rule.
    pub struct SensorRecord {
        pub status: BoardStatus,
        pub security: SecurityStatus,
        pub sensors: BoardSensors,
        pub device1: Device,
        pub device2: Device,
        pub module0: NetworkModule,
        pub module1: NetworkModule,
    }
}

values! {
    /// Board status information.
    pub struct BoardStatus {
        /// Critical temperature events, 0 to 15.
        pub tcrit: u8,
        /// Power good events, 0 to 15.
        pub power_good: u8,
        /// Temperature warnings, 0 to 15.
        pub twarn: u8,
        /// Catastrophic temperature events of the memory, 0 to 15.
        pub hbm_cattrip: u8,
        /// 1 if network module 0 is present.
        pub module0_present: u8,
        /// 1 if network module 1 is present.
        pub module1_present: u8,
        /// 1 if the auxiliary power cable is present.
        pub aux_cable: u8,
        /// Hundreds of writes to the controller's flash.
        pub flash_writes: u8,
    }
}

values! {
    /// Board security status information.
    pub struct SecurityStatus {
        /// 0: the controller is connected to device 1, 1: to device 2.
        pub spi_device: u8,
        pub flash1: FlashControl,
        pub flash2: FlashControl,
        /// Four bits, one for each flash that is authenticated.
        pub authentication: u8,
        /// 1 if JTAG access is enabled.
        pub jtag: u8,
    }
}

values! {
    /// The control of one device's flash.
    pub struct FlashControl {
        /// 0: the primary flash is selected, 1: the recovery flash.
        pub recovery: u8,
        /// Two bits, the higher bit first. 3 is not valid.
        pub mode: u8,
        /// 0: write protect, 1: write enable.
        pub write_enable: u8,
    }
}

values! {
    /// The board's sensors: temperatures in degrees Celsius, total power in watts.
    pub struct BoardSensors {
        pub inlet: i8,
        pub outlet: i8,
        pub input_3v3: InputSensor,
        pub input_12v: InputSensor,
        pub input_aux: InputSensor,
        pub total_power: u16,
    }
}

values! {
    /// One input sensor, raw: a unit of the 12 V input is 1.25 mA or 1.25 mV.
    pub struct InputSensor {
        pub current: u16,
        pub voltage: u16,
    }
}

values! {
    /// One device.
    pub struct Device {
        pub status: DeviceStatus,
        pub fpga_temperature: i8,
        pub hbm_temperature: i8,
        pub errors: ErrorCounters,
    }
}

values! {
    /// A device's status information: four pins, and its heartbeat's count, 0 to 15.
    pub struct DeviceStatus {
        pub done: u8,
        pub init_b: u8,
        pub error_out: u8,
        pub error_status: u8,
        pub keep_alive: u8,
    }
}

values! {
    /// A device's advanced error counters.
    pub struct ErrorCounters {
        pub ddr_uncorrectable: u16,
        pub ddr_correctable: u16,
        pub pcie_uncorrectable: u16,
        pub pcie_correctable: u32,
    }
}

values! {
    /// One network module.
    pub struct NetworkModule {
        pub temperature: i8,
        pub status: ModuleStatus,
    }
}

values! {
    /// A network module's status: four bits of `rate_select`, two of `rx_loss`, `tx_disable` and `tx_fault`, one of
    /// each other.
    pub struct ModuleStatus {
        pub present: u8,
        pub interrupt: u8,
        pub low_power: u8,
        pub rate_select: u8,
        pub rx_loss: u8,
        pub tx_disable: u8,
        pub tx_fault: u8,
        pub power_enable: u8,
        pub over_current: u8,
    }
}

/// The values in 87 bytes.
pub(crate) fn values(bytes: &[u8; LENGTH]) -> SensorRecord {
    Value::take(bytes, &mut 0)
}

/// The 87 bytes of values.
pub(crate) fn bytes(record: &SensorRecord) -> [u8; LENGTH] {
    let mut all = [0; LENGTH];
    record.put(&mut 0, &mut all);
    all
}

#[cfg(test)]
mod tests {
    use super::*;

    #[test]
    fn each_way_undoes_the_other() {
        let mut all = [0; LENGTH];
        for (i, byte) in all.iter_mut().enumerate() {
            *byte = (i * 37 + 130) as u8;
        }
        assert_eq!(bytes(&values(&all)), all);
    }

    #[test]
    fn the_parts_fill_the_bytes() {
        let mut at = 0;
        SensorRecord::default().put(&mut at, &mut [0; LENGTH]);
        assert_eq!(at, LENGTH);
    }

    #[test]
    fn fields_stand_at_their_places() {
        let mut record = SensorRecord::default();
        record.security.jtag = 1;
        record.sensors.inlet = -2;
        record.sensors.input_12v.voltage = 0x1234;
        record.sensors.total_power = 0x5678;
        record.device2.errors.pcie_correctable = 0x9ABC_DEF0;
        record.module1.status.over_current = 7;
        let mut expected = [0; LENGTH];
        expected[16] = 1;
        expected[17] = 0xFE;
        expected[25..27].copy_from_slice(&[0x34, 0x12]);
        expected[31..33].copy_from_slice(&[0x78, 0x56]);
        expected[63..67].copy_from_slice(&[0xF0, 0xDE, 0xBC, 0x9A]);
        expected[86] = 7;
        assert_eq!(bytes(&record), expected);
        assert_eq!(values(&expected), record);
    }
}

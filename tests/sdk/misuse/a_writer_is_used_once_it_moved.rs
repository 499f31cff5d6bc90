// error[E0382]
use kotskhin::{Error, Export, Writer};

pub fn collect(mut writer: Writer) -> Result<Export, Error> {
    drop(writer);
    writer.collect(200)
}

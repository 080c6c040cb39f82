"""The keywords of the hierarchy, section 3a of source document 000, as it spells them; [Number of Pins] of its last tree is [Number Of Pins]."""

HIERARCHY = [
    'IBIS Ver', 'Comment Char', 'File Name', 'File Rev', 'Date', 'Source', 'Notes', 'Disclaimer', 'Copyright', 'Component',
    'Manufacturer', 'Package', 'Pin', 'Package Model', 'Alternate Package Models', 'End Alternate Package Models', 'Pin Mapping',
    'Diff Pin', 'Series Pin Mapping', 'Series Switch Groups', 'Node Declarations', 'End Node Declarations', 'Circuit Call',
    'End Circuit Call', 'Begin EMI Component', 'Pin EMI', 'Pin Domain EMI', 'End EMI Component', 'Model Selector', 'Model',
    'Model Spec', 'Receiver Thresholds', 'Add Submodel', 'Driver Schedule', 'Temperature Range', 'Voltage Range',
    'Pullup Reference', 'Pulldown Reference', 'POWER Clamp Reference', 'GND Clamp Reference', 'External Reference', 'TTgnd',
    'TTpower', 'Pulldown', 'Pullup', 'GND Clamp', 'POWER Clamp', 'ISSO PU', 'ISSO PD', 'Rgnd', 'Rpower', 'Rac', 'Cac', 'On', 'Off',
    'R Series', 'L Series', 'Rl Series', 'C Series', 'Lc Series', 'Rc Series', 'Series Current', 'Series MOSFET', 'Ramp',
    'Rising Waveform', 'Composite Current', 'Falling Waveform', 'Test Data', 'Rising Waveform Near', 'Falling Waveform Near',
    'Rising Waveform Far', 'Falling Waveform Far', 'Diff Rising Waveform Near', 'Diff Falling Waveform Near',
    'Diff Rising Waveform Far', 'Diff Falling Waveform Far', 'Test Load', 'External Model', 'End External Model',
    'Algorithmic Model', 'End Algorithmic Model', 'Begin EMI Model', 'End EMI Model', 'Submodel', 'Submodel Spec',
    'POWER Pulse Table', 'GND Pulse Table', 'External Circuit', 'End External Circuit', 'Define Package Model', 'OEM',
    'Description', 'Number Of Sections', 'Number Of Pins', 'Pin Numbers', 'Model Data', 'Resistance Matrix', 'Inductance Matrix',
    'Bandwidth', 'Row', 'Capacitance Matrix', 'End Model Data', 'End Package Model', 'End', 'Begin Board Description', 'Pin List',
    'Path Description', 'Reference Designator Map', 'End Board Description',
]

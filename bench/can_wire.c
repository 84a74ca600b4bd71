// SPDX-License-Identifier: GPL-2.0
/* A wire between the drivers of CAN controllers and an emulated bus, which has no time, no arbitration and no
 * acknowledgement of its own. For bench/controllers, in a machine with one processor.
 *
 * A frame takes the time of its bits, with the most stuff bits that CAN has for its length. Of those that wait the
 * lowest identifier goes first. A frame that no other interface hears is not acknowledged: its controller keeps it, as
 * one that tries again for ever, and is ERROR-PASSIVE at once, as one is after sixteen tries. Each frame that is sent
 * takes one of its errors away. Commands, written to /sys/module/can_wire/parameters/command:
 *
 *   rate 125000             bits in a second
 *   off can0, on can0       the plug of an interface comes off, and is on again
 *   off-at can0 1E1E8083    it comes off when the controller is given a frame with this identifier
 *   lose can0 5             the next frames are lost in the driver: they are not on the bus, and have no echo
 *   bus-off can0            the controller leaves the bus, and forgets its frame
 *   noise can0 16           so many of its frames were spoilt: ERROR-PASSIVE from the sixteenth on
 *
 * Read, it tells of each interface its plug, its errors, and the identifier of the frame that waits in it.
 */
#include <linux/can/dev.h>
#include <linux/can/error.h>
#include <linux/can/skb.h>
#include <linux/hrtimer.h>
#include <linux/module.h>
#include <linux/netdevice.h>
#include <linux/rtnetlink.h>

#define ENDS 8
#define PER_ERROR 8
#define WARNING 96
#define PASSIVE 128

struct end {
	struct net_device *dev;
	const struct net_device_ops *driver;
	struct net_device_ops ops;
	struct sk_buff *waiting; /* what its controller sends */
	bool is_off;
	canid_t off_at;
	int lost; /* so many of the next frames */
	int errors;
};

static struct end ends[ENDS];
static struct end *sender; /* whose frame is on the wire */
static unsigned int rate = 1000000;
static struct hrtimer timer;
static DEFINE_SPINLOCK(lock);

static struct end *end_of(const struct net_device *dev)
{
	int at;

	for (at = 0; at < ENDS; at++)
		if (ends[at].dev == dev)
			return &ends[at];
	return NULL;
}

static canid_t identifier_of(const struct sk_buff *skb)
{
	return ((const struct can_frame *)skb->data)->can_id;
}

static u32 rank(const struct end *end)
{
	canid_t id = identifier_of(end->waiting);

	return id & CAN_EFF_FLAG ? id & CAN_EFF_MASK : (id & CAN_SFF_MASK) << 18;
}

/* The most bits of a frame, with the three behind it. */
static unsigned int bits(const struct sk_buff *skb)
{
	unsigned int data = 8 * ((const struct can_frame *)skb->data)->len;

	return identifier_of(skb) & CAN_EFF_FLAG ? 67 + data + (53 + data) / 4 : 47 + data + (33 + data) / 4;
}

static bool is_on_the_bus(const struct end *end)
{
	return end->dev && !end->is_off && netif_running(end->dev) &&
	       ((struct can_priv *)netdev_priv(end->dev))->state < CAN_STATE_BUS_OFF;
}

static bool is_acknowledged(const struct end *of)
{
	int at;

	for (at = 0; at < ENDS; at++)
		if (&ends[at] != of && is_on_the_bus(of) && is_on_the_bus(&ends[at]))
			return true;
	return false;
}

/* The state that the controller has with its errors. */
static void tell_state(struct end *end)
{
	struct can_priv *priv = netdev_priv(end->dev);
	enum can_state state = end->errors < WARNING ? CAN_STATE_ERROR_ACTIVE :
			       end->errors < PASSIVE ? CAN_STATE_ERROR_WARNING : CAN_STATE_ERROR_PASSIVE;
	struct can_frame *frame;
	struct sk_buff *skb;

	if (state == priv->state || priv->state >= CAN_STATE_BUS_OFF)
		return;
	skb = alloc_can_err_skb(end->dev, &frame);
	can_change_state(end->dev, skb ? frame : NULL, state, state);
	if (skb)
		netif_rx(skb);
}

static void set_errors(struct end *end, int errors)
{
	end->errors = clamp(errors, 0, PASSIVE);
	tell_state(end);
}

/* The lowest identifier has the wire, if it is free. */
static void begin(void)
{
	int at;

	if (sender)
		return;
	for (at = 0; at < ENDS; at++) {
		struct end *end = &ends[at];

		if (!end->waiting)
			continue;
		if (!is_acknowledged(end))
			set_errors(end, PASSIVE);
		else if (!sender || rank(end) < rank(sender))
			sender = end;
	}
	if (sender)
		hrtimer_start(&timer, ns_to_ktime(div_u64(NSEC_PER_SEC * (u64)bits(sender->waiting), rate)),
			      HRTIMER_MODE_REL_SOFT);
}

static enum hrtimer_restart ended(struct hrtimer *of)
{
	struct sk_buff *skb = NULL;
	struct end *end;

	spin_lock(&lock);
	end = sender;
	sender = NULL;
	if (end && end->waiting && is_acknowledged(end)) {
		skb = end->waiting;
		end->waiting = NULL;
		set_errors(end, end->errors - 1);
	}
	spin_unlock(&lock);
	if (skb)
		end->driver->ndo_start_xmit(skb, end->dev);
	spin_lock(&lock);
	begin();
	spin_unlock(&lock);
	return HRTIMER_NORESTART;
}

static netdev_tx_t send(struct sk_buff *skb, struct net_device *dev)
{
	struct end *end = end_of(dev);

	if (can_dropped_invalid_skb(dev, skb))
		return NETDEV_TX_OK;
	spin_lock(&lock);
	if (end->lost > 0) {
		end->lost--;
		kfree_skb(skb);
	} else {
		netif_stop_queue(dev);
		end->waiting = skb;
		if (end->off_at && (identifier_of(skb) & CAN_EFF_MASK) == end->off_at) {
			end->is_off = true;
			end->off_at = 0;
		}
		begin();
	}
	spin_unlock(&lock);
	return NETDEV_TX_OK;
}

static void forget(struct end *end)
{
	kfree_skb(end->waiting);
	end->waiting = NULL;
	end->errors = 0;
	if (sender == end) {
		hrtimer_try_to_cancel(&timer);
		sender = NULL;
		begin();
	}
}

static int stop(struct net_device *dev)
{
	struct end *end = end_of(dev);

	spin_lock_bh(&lock);
	forget(end);
	spin_unlock_bh(&lock);
	return end->driver->ndo_stop(dev);
}

static rx_handler_result_t hear(struct sk_buff **skb)
{
	struct end *end = end_of((*skb)->dev);

	if (!end || is_on_the_bus(end) || identifier_of(*skb) & CAN_ERR_FLAG)
		return RX_HANDLER_PASS;
	kfree_skb(*skb);
	return RX_HANDLER_CONSUMED;
}

static int count(const struct net_device *dev, struct can_berr_counter *counter)
{
	counter->txerr = end_of(dev)->errors;
	counter->rxerr = 0;
	return 0;
}

/* Puts the wire between the driver of this interface and its controller, once. */
static struct end *take(const char *name)
{
	struct net_device *dev = dev_get_by_name(&init_net, name);
	struct end *end = dev ? end_of(dev) : NULL;

	if (dev && end) {
		dev_put(dev);
		return end;
	}
	end = dev ? end_of(NULL) : NULL;
	if (!end)
		return NULL;
	rtnl_lock();
	end->driver = dev->netdev_ops;
	end->ops = *dev->netdev_ops;
	end->ops.ndo_start_xmit = send;
	end->ops.ndo_stop = stop;
	end->dev = dev;
	dev->netdev_ops = &end->ops;
	((struct can_priv *)netdev_priv(dev))->do_get_berr_counter = count;
	if (netdev_rx_handler_register(dev, hear, NULL))
		pr_warn("can_wire: %s hears all\n", name);
	rtnl_unlock();
	return end;
}

static void leave_the_bus(struct end *end)
{
	struct can_frame *frame;
	struct sk_buff *skb = alloc_can_err_skb(end->dev, &frame);

	forget(end);
	can_change_state(end->dev, skb ? frame : NULL, CAN_STATE_BUS_OFF, CAN_STATE_BUS_OFF);
	can_bus_off(end->dev);
	if (skb)
		netif_rx(skb);
}

static int command(const char *text, const struct kernel_param *param)
{
	char what[16], name[IFNAMSIZ];
	unsigned int number = 0;
	struct end *end;
	int read = 0;

	if (sscanf(text, "rate %u", &number) == 1 && number) {
		rate = number;
		return 0;
	}
	if (sscanf(text, "%15s %15s%n", what, name, &read) != 2)
		return -EINVAL;
	if (text[read] && sscanf(text + read, !strcmp(what, "off-at") ? "%x" : "%u", &number) != 1)
		return -EINVAL;
	end = take(name);
	if (!end)
		return -ENODEV;
	spin_lock_bh(&lock);
	if (!strcmp(what, "off"))
		end->is_off = true;
	else if (!strcmp(what, "off-at"))
		end->off_at = number;
	else if (!strcmp(what, "on"))
		end->is_off = false;
	else if (!strcmp(what, "lose"))
		end->lost = number;
	else if (!strcmp(what, "bus-off"))
		leave_the_bus(end);
	else if (!strcmp(what, "noise"))
		set_errors(end, end->errors + PER_ERROR * min(number, 100U));
	else
		read = 0;
	begin();
	spin_unlock_bh(&lock);
	return read ? 0 : -EINVAL;
}

static int state(char *text, const struct kernel_param *param)
{
	int at, used = 0;

	spin_lock_bh(&lock);
	for (at = 0; at < ENDS && ends[at].dev; at++)
		used += sysfs_emit_at(text, used, "%s %s %d %08x\n", ends[at].dev->name, ends[at].is_off ? "off" : "on",
				      ends[at].errors,
				      ends[at].waiting ? identifier_of(ends[at].waiting) & CAN_EFF_MASK : 0);
	spin_unlock_bh(&lock);
	return used;
}

static const struct kernel_param_ops parameter = { .set = command, .get = state };
module_param_cb(command, &parameter, NULL, 0600);

static int __init begins(void)
{
	hrtimer_init(&timer, CLOCK_MONOTONIC, HRTIMER_MODE_REL_SOFT);
	timer.function = ended;
	return 0;
}

/* (no exit: the drivers' calls go through it until the machine ends) */
module_init(begins);
MODULE_DESCRIPTION("A wire with time, arbitration, acknowledgement and plugs for emulated CAN controllers");
MODULE_LICENSE("GPL");
